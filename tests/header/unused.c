/* Includes the header and uses nothing of it. */

#include <vespruldo.h>

int main(void)
{
    return 0;
}
