OPENQASM 3.0;include"stdgates.inc";// a program in a hurry
qubit[2]q;bit[2]c;
if(c==1)x q[0];else{h q[ 1 ] ;}
