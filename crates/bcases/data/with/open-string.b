main()
    say("open