#ifdef A
@
#endif
