main(){break;default:x;}
