main $( extrn write; write(040040); write('hi'); write(012); $)
