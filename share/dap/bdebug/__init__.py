"""A debugger for programs in B, forwards and backwards: the run of a program, and what speaks of it.

`program` has the lines, places and names of a source; `run` its run, which goes back by being made anew; `evaluate` the
expressions; `stops` the breakpoints; `debugger` the commands that all speak of; `protocol` and `server` the Debug
Adapter Protocol; `console` the commands that a person types."""
