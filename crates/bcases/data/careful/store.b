/* Stores 7. */
store(v, i)
    v[i] = 7;
