#include <livevec.hpp>
#include <iostream>

int main()
{
    livevec::vector prices{300, 120, 500, 80};
    prices.write(0, 180);
    std::cout << prices.sum(0, 4) << ' ' << *prices.least(0, 2) << '\n';
}
// prints: 880 120
