paritysol 4;
0 0;
1 0;
2 0 1;
3 0 4;
4 0;
