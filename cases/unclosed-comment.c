int x;
/*abc