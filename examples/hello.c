#include <stdio.h>
long a, b;
int main() { a = 41; b = a; printf("hello\n"); }
