n 5,

/* end */ 