main() {
    if(getchar() == 'a') {
        putchar('a');
    }
    }
    k = 100;
}

k 5;
