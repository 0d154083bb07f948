int x

#if A
