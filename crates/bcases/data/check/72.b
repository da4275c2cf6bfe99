words getvec;
