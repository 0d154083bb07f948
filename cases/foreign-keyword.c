int x;
float y;
