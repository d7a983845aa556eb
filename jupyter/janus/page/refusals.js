// What each refusal and fault asks for. Made by jupyter/refusals from the tables of docs/MESSAGES.md: change it there.
define([], function () {

return {
    30: {
        name: "BadToken",
        advice: "a character has no meaning here: remove it",
    },
    31: {
        name: "Expected",
        advice: "something else is needed here, such as 'then' after the test of an 'if'",
    },
    32: {
        name: "NumberTooLarge",
        advice: "a number is greater than 2147483647, the largest there is: use a smaller one. Sums beyond it wrap around, and -2147483648 is written as '-2147483647 - 1'",
    },
    33: {
        name: "TooNested",
        advice: "more than 64 constructs are nested, or an expression has more than 256 operators: split it with a variable or a procedure",
    },
    34: {
        name: "DelocalName",
        advice: "the kind and name after 'delocal' have to be those after its 'local'",
    },
    35: {
        name: "Memory",
        advice: "there was no memory to read the text; for a cell this is reported as 76",
    },
    40: {
        name: "Declared",
        advice: "the name is already declared, a procedure is defined twice in the cell, or two of its parameters have the same name: choose another, or undo the declaration; to run all cells again, go to node 0 first",
    },
    41: {
        name: "Unknown",
        advice: "no such name is in scope: declare it. In a procedure only its parameters and locals are in scope, and a statement after a procedure belongs to it",
    },
    42: {
        name: "WrongKind",
        advice: "this name is not of the kind (number, array or stack) that is needed here: an array may lack its index, an argument must have its parameter's kind, and '<=>' swaps two variables that are numbers",
    },
    43: {
        name: "SelfUse",
        advice: "an assignment names its own variable on the right or in its index, so it could not be undone; or one of a local's own two expressions names it: use a second variable",
    },
    44: {
        name: "SameArgument",
        advice: "a name is given twice among the arguments of a call: pass a copy in a local",
    },
    45: {
        name: "Arity",
        advice: "the procedure has a different number of parameters",
    },
    46: {
        name: "Shadow",
        advice: "a local's name is already in scope: choose another",
    },
    47: {
        name: "ChangedParameters",
        advice: "a procedure can be redefined only with the same kinds of parameters: choose another name",
    },
    48: {
        name: "TooMany",
        advice: "more than 256 names, 64 stacks, 256 procedures or 16 parameters",
    },
    49: {
        name: "ArrayLength",
        advice: "an array has 1 to 65,536 elements",
    },
    50: {
        name: "FiAssertion",
        advice: "the expression after 'fi' has to be nonzero after 'then' and 0 after 'else': find one that tells the two ways apart",
        backward: "the expression after 'if' has to be nonzero once 'then' is taken back, and 0 once 'else' is; it was not, so no call ends with these values",
    },
    51: {
        name: "EntryAssertion",
        advice: "the expression after 'from' has to be nonzero when the loop is entered",
        backward: "the expression after 'until' has to be nonzero at first; it was not, so no call ends with these values",
    },
    52: {
        name: "LoopAssertion",
        advice: "the expression after 'from' has to be 0 in every further turn: choose one that holds only at the start",
        backward: "the expression after 'until' has to be 0 in every further turn; it was not, so no call ends with these values",
    },
    53: {
        name: "DelocalMismatch",
        advice: "a local doesn't end with the value that its 'delocal' gives: bring it to that value first, or empty the stack",
        backward: "it has to come back to the value that its 'local' gives; it did not, so no call ends with these values",
    },
    54: {
        name: "PopNotZero",
        advice: "a 'pop' needs a variable that is 0",
        backward: "a 'push' takes its number back from the stack, into a variable that has to be 0; it was not, so no call ends with these values",
    },
    55: {
        name: "PopEmpty",
        advice: "the stack is empty: test 'empty(s)' first",
        backward: "a 'push' takes its number back from the stack, which is empty, so no call ends with these values",
    },
    56: {
        name: "TopEmpty",
        advice: "'top(s)' of an empty stack: test 'empty(s)' first",
    },
    57: {
        name: "DivisionByZero",
        advice: "'/' or '%' by 0",
    },
    58: {
        name: "IndexRange",
        advice: "the index is below 0 or beyond the end",
    },
    59: {
        name: "StackFull",
        advice: "all stacks together, including local ones and those outside an open call, hold 262,144 numbers: pop some first",
    },
    60: {
        name: "TooDeep",
        advice: "more than 16,384 frames are open at once; each call, and each statement inside another, opens some, so a recursion with one call inside an 'if' goes about 4,000 levels deep: yours doesn't end, or is too deep",
    },
    61: {
        name: "TooManyStacks",
        advice: "there are 64 stacks already",
    },
    62: {
        name: "StepLimit",
        advice: "10^12 steps were taken",
    },
    70: {
        name: "HistoryFull",
        advice: "the history has its 65,536 nodes, and nodes are never freed: save your cells and restart the kernel, which forgets what it holds",
    },
    71: {
        name: "NoNode",
        advice: "no cell has this number",
    },
    72: {
        name: "Memory",
        advice: "there was no memory for a node; for a cell this is reported as 76",
    },
    73: {
        name: "TooFar",
        advice: "there are fewer cells that way: nothing was done",
    },
    74: {
        name: "QueueFull",
        advice: "1,024 jobs are waiting: wait until some are done. With 'janus-kernel' at most 32 wait, so this never comes",
    },
    75: {
        name: "Closing",
        advice: "the kernel is shutting down",
    },
    76: {
        name: "Memory",
        advice: "there was no memory: nothing was done",
    },
    77: {
        name: "MinutesFull",
        advice: "the kernel has served 500,000 jobs: restart it",
    },
    78: {
        name: "PassMissing",
        advice: "comes when a kernel's own books are audited as it is closed, and don't add up. 'janus-kernel' audits none, so this never comes",
    },
    79: {
        name: "TicketUnknown",
        advice: "comes when a kernel's own books are audited, like 78",
    },
    80: {
        name: "BadCommand",
        advice: "only in 'janus-cells' and 'janus-steps': no command has this form",
    },
    81: {
        name: "NoPass",
        advice: "the kernel has given out its 65,536 passes. 'janus-kernel' takes 64 when it starts and gives out no more, so this never comes",
    },
};
});
