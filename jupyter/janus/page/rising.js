// Lists of rising numbers.
define([], function () {
'use strict';

// The place of the first that is no less than the least.
function first_from(numbers, least) {
    let low = 0, high = numbers.length;
    while (low < high) {
        const half = (low + high) >> 1;
        if (numbers[half] < least) low = half + 1; else high = half;
    }
    return low;
}

return {first_from: first_from};
});
