// The code that runs in mode U.

volatile unsigned count;

int main(void)
{
    count++;
    return 0;
}
