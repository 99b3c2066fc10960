/* Closed sessions: GEOSVM_CLOSED as an initializer and in an assignment, of automatic and of static sessions, in C and in C++. It has to
   compile without a warning. */
#include "geosvm.h"

struct window {
  int width;
  geosvm_session document;
};
static geosvm_session alone = GEOSVM_CLOSED;
static geosvm_session pair[2] = {GEOSVM_CLOSED, GEOSVM_CLOSED};
static struct window window = {80, GEOSVM_CLOSED};

int main(void) {
  static geosvm_session within = GEOSVM_CLOSED;
  geosvm_session s = GEOSVM_CLOSED, both[2] = {GEOSVM_CLOSED, GEOSVM_CLOSED};
  const geosvm_session constant = GEOSVM_CLOSED;
  struct window other = {80, GEOSVM_CLOSED};
  s = GEOSVM_CLOSED;
  alone = GEOSVM_CLOSED;
  pair[1] = GEOSVM_CLOSED;
  window.document = other.document = GEOSVM_CLOSED;
  both[1] = s;
  within = constant;
  if (geosvm_close(&s) != GEOSVM_NOT_OPEN || geosvm_close(&alone) != GEOSVM_NOT_OPEN || geosvm_close(&pair[1]) != GEOSVM_NOT_OPEN) return 1;
  if (geosvm_close(&within) != GEOSVM_NOT_OPEN || geosvm_close(&both[1]) != GEOSVM_NOT_OPEN) return 1;
  return geosvm_close(&window.document) != GEOSVM_NOT_OPEN;
}
