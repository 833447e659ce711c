#include <stdio.h>
long a;
int main() { a = b; }
