int x;

@