/* A factorial without a case that ends it: it passes each bound. */
int factorial(int n) { return n * factorial(n - 1); }

int main(void) { return factorial(3); }
