// The inputs that the page begins with.

/** A small graph with a weight, drawn as a house. */
export const EXAMPLE_GRAPH = `p edge 5 7
v 1 200 950
v 2 800 950
v 3 800 450
v 4 200 450
v 5 500 50
e 1 2
e 2 3
e 3 4 2
e 4 1
e 4 5
e 5 3
e 1 3
`;

/** An extremal formula: no two of its clauses are false together. */
export const EXAMPLE_FORMULA = `p cnf 6 5
1 2 0
-2 3 0
-3 4 5 0
-4 -5 6 0
-6 -1 0
`;
