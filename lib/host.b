/* host.b: calls of the program that runs this one in a session, and calls by it. It needs no other file. */

/* host(name, a, b, c, d, e) calls the function of the host that has this name, a string, with up to five words, and
   gives its answer. Meanwhile the host may call functions of this program. A run without a host loses its input here,
   and gets a 0.
   Known from: this project. */
host(name, a, b, c, d, e)
    return(hostwait(1, &name));

/* serve() waits, and calls each function of this program that the host asks for, until the host has no more, as at the
   end of the input.
   Known from: this project. */
serve() {
    extrn hostq;

    hostwait(2, hostq + 1);
}

/* For the two above: this leaves six words for the host, waits for it with a state in hostq[0], and gives the answer
   that it leaves in hostq[7]. With the state 3 it calls the function hostq[1] of this program with the words from
   hostq[2] on, leaves its value in hostq[7], and waits again: its state then has 4 more. */
hostwait(state, words) {
    extrn hostq;
    auto f, i;

    while(1) {
        i = 0;
        while(i <= 5) {
            hostq[i + 1] = words[i];
            i++;
        }
        hostq[0] = state;
        while(hostq[0] == state)
            if(getchar() == '*e')
                return(hostq[0] = 0);
        if(hostq[0] != 3)
            return(hostq[7]);
        f = hostq[1];
        hostq[7] = f(hostq[2], hostq[3], hostq[4], hostq[5], hostq[6]);
        state = state | 4;
    }
}

hostq[7];
