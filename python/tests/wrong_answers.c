/*
 * A wrong engine for the course: the real one, of which one answer is spoilt. The real function is renamed in the object
 * file. WRONG_TRY: by the other row a guest gains one mill less. WRONG_CLEAR: the first guest with a seat pays one mill
 * less. WRONG_GAINS: of many rows each gains so much more.
 */
#include "bay_market.h"
#include "exports.h"

#ifdef WRONG_TRY
uint8_t real_bay_market_try(TRY_PARAMETERS);

uint8_t bay_market_try(TRY_PARAMETERS)
{
    uint8_t answer = real_bay_market_try(TRY_ARGUMENTS);
    if (answer == 0) {
        *second_gain -= 1;
    }
    return answer;
}
#endif

#ifdef WRONG_CLEAR
uint8_t real_bay_market_clear(CLEAR_PARAMETERS);

uint8_t bay_market_clear(CLEAR_PARAMETERS)
{
    uint8_t answer = real_bay_market_clear(CLEAR_ARGUMENTS);
    for (size_t i = 0; answer == 0 && i < charges_len; i++) {
        if (charges[i] > 0) {
            charges[i] -= 1;
            break;
        }
    }
    return answer;
}
#endif

#ifdef WRONG_GAINS
uint8_t real_bay_market_gains(GAINS_PARAMETERS);

uint8_t bay_market_gains(GAINS_PARAMETERS)
{
    uint8_t answer = real_bay_market_gains(GAINS_ARGUMENTS);
    for (size_t k = 0; answer == 0 && k < gains_len; k++) {
        gains[k] += WRONG_GAINS;
    }
    return answer;
}
#endif
