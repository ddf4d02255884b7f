//! Models as their files print them.

/// The model that the document prints, 235 bytes.
pub const DOUGH: &str = include_str!("../../../../examples/dough.pomdp");

/// Two states, three actions, two observations.
pub const TIGER: &str = include_str!("../../../../examples/tiger.pomdp");

/// A small model in another dress: comments, CR LF, tabs, single forms, doubled statements.
pub(super) const DRESSED: &str = "# a kettle : *\r\n\
discount:1.000# no discount\r\n\
\tvalues : reward\r\n\
states:02 actions:1 observations:3\r\n\
start: 1\t0.00 # all on 0\r\n\
T:*:*:* 0.5 T: 0 : 1 0 1\r\n\
T: 0 : 01 : * 0.25 T: 0 : 1 : 0 0.750 # 3/4\r\n\
O: * : * 0.2 0.3 0.5\r\n\
O: 0 : 1 : 0 0 O:0:1:1 0.5\r\n\
R: * : * : * : * -0001.50 R: 0 : 1 : * : * 1000.00\r\n\
#";

/// Numbers as people type them: parts are missing, and exponents follow.
pub(super) const TYPED: &str = "\
discount: .9
values: reward
states: 2
actions: 2
observations: 2
start: 5e-1 .05e1
T: 0 : 0 .5 5.e-1
T: 0 : 1 0. 1.
T: 1 : * 1e0 0e-3
O: 0 : 0 8e-1 .2e0
O: 0 : 1 0.3e-0 .007e2
O: 1 : * .50 .500
R: 0 : * : * : * -1.
R: 1 : 0 : * : * -1e1
R: 1 : 1 : * : * 6000e-3
";

/// A model with the statements that the dough model lacks.
pub(super) const SINGLES: &str = "\
discount: 0.95
values: reward
states: 2
actions: 1
observations: 2
start: 1 0
T: * : * : * 0.5
T: 0 : 1 : 0 0.25
T: 0 : 01 : 1 0.750
O: * : 0 : * 0.5
O: 0 : 1 : 0 1
R: * : 0 : * : * -0.5
";

/// A small model whose rewards depend on what follows, all of them expected as whole ticks.
pub(super) const OUTCOMES: &str = "\
discount: 0.9
values: reward
states: 2
actions: 2
observations: 2
start: 0.5 0.5
T: 0 : 0 0.5 0.5
T: 0 : 1 0 1
T: 1 : * 1 0
O: 0 : 0 0.8 0.2
O: 0 : 1 0.3 0.7
O: 1 : * 0.5 0.5
R: * : * : * : * -1
R: 0 : 0 : 1 : 1 6.00
R: 1 : 1 : 0 : * -10
R: 1 : * : * : 0 2.5
";
