f() break;
