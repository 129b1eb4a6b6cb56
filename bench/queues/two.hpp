// A queue of two rings, whose file is named to the compiler too, -DRING='"boost.hpp"'.
#include RING

using Queue = Two<Ring>;
using Port = PortOfTwo<Ring>;
