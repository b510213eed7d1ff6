// One thing that a user may do: a click, a key, an action that is chosen, taken at random.
#pragma once

void poke();
