// version.cpp: the same in C++, with all headers.
#include <gerfmuod/core.h>
#include <gerfmuod/gerfmuod.hpp>
#include <gerfmuod/process.h>
#include <iostream>

int main() {
    std::cout << "version " << gerfmuod_version() << '\n';
    return gerfmuod_version() != GERFMUOD_VERSION;
}
