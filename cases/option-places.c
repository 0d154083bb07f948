int main(void){for(;;)for(;;)for(;;);}
