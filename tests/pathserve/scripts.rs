//! Scripts with what a replay of them writes, worked out by hand.

use pathserve::Status;

/// Scripts, each with the status in which a replay of it ends and what it writes.
pub(crate) const SCRIPTS: [(&str, Status, &str); 19] = [
    // the edits of a turn count for all its requests
    (
        "{\"version\":1,\"size\":[3,1],\"callers\":2,\"classes\":[{\"name\":\"default\",\"clearance\":\"0\"}]}\n\
{\"caller\":0,\"path\":\"default\",\"from\":[\"0.5\",\"0.5\"],\"goal\":{\"point\":[\"2.5\",\"0.5\"]}}\n\
{\"caller\":1,\"add\":1,\"unit\":[\"1.5\",\"0.5\",\"0.25\"]}\n\
{\"end\":1}\n",
        Status::Done,
        "turn 1 regions 2 edges 0 areas 2 relabelled 1\n\
0 0 path 0 0 0 0 near 0 0\n\
1 0 added 1\n",
    ),
    // a region beside the border of a chunk is cut off from the other
    (
        "{\"version\":1,\"size\":[192,1],\"callers\":1,\"classes\":[{\"name\":\"default\",\"clearance\":\"1\"}]}\n\
{\"caller\":0,\"path\":\"default\",\"from\":[\"0.5\",\"0.5\"],\"goal\":{\"point\":[\"191.5\",\"0.5\"]}}\n\
{\"end\":1}\n\
{\"caller\":0,\"add\":9,\"unit\":[\"95\",\"0.5\",\"0.5\"]}\n\
{\"caller\":0,\"path\":\"default\",\"from\":[\"0.5\",\"0.5\"],\"goal\":{\"point\":[\"191.5\",\"0.5\"]}}\n\
{\"caller\":0,\"region\":\"default\",\"at\":[\"100.5\",\"0.5\"]}\n\
{\"end\":2}\n",
        Status::Done,
        "turn 1 regions 2 edges 1 areas 1 relabelled 0\n\
0 0 path 0 0 191 0 goal 12517376 1 191.5,0.5\n\
turn 2 regions 2 edges 0 areas 2 relabelled 2\n\
0 0 added 9\n\
0 1 path 0 0 92 0 near 6029312 1 92.5,0.5\n\
0 2 region 1 0 1 2\n",
    ),
    // edits are answered in the order of the posts
    (
        "{\"version\":1,\"size\":[3,1],\"callers\":1,\"classes\":[{\"name\":\"default\",\"clearance\":\"0\"}]}\n\
{\"caller\":0,\"add\":1,\"unit\":[\"1.5\",\"0.5\",\"0.25\"]}\n\
{\"caller\":0,\"add\":1,\"unit\":[\"1.5\",\"0.5\",\"0.25\"]}\n\
{\"caller\":0,\"remove\":5}\n\
{\"caller\":0,\"remove\":1}\n\
{\"caller\":0,\"add\":1,\"unit\":[\"1.5\",\"0.5\",\"0.25\"]}\n\
{\"end\":1}\n",
        Status::Done,
        "turn 1 regions 2 edges 0 areas 2 relabelled 1\n\
0 0 added 1\n\
0 1 refused duplicate-id\n\
0 2 refused unknown-id\n\
0 3 removed 1\n\
0 4 added 1\n",
    ),
    // each reason why a post is refused but a number's
    (
        "{\"version\":1,\"size\":[3,3],\"callers\":1,\"classes\":[{\"name\":\"default\",\"clearance\":\"0\"}]}\n\
{\"caller\":0,\"path\":\"ship\",\"from\":[\"0.5\",\"0.5\"],\"goal\":{\"point\":[\"2.5\",\"2.5\"]}}\n\
{\"caller\":0,\"path\":\"default\",\"from\":[\"3\",\"0.5\"],\"goal\":{\"point\":[\"0.5\",\"0.5\"]}}\n\
{\"caller\":0,\"path\":\"default\",\"from\":[\"0.5\",\"0.5\"],\"goal\":{\"point\":[\"0.5\",\"3\"]}}\n\
{\"caller\":0,\"add\":1,\"unit\":[\"0.5\",\"0.5\",\"-1\"]}\n\
{\"end\":1}\n",
        Status::Done,
        "turn 1 regions 1 edges 0 areas 1 relabelled 0\n\
0 0 refused unknown-class\n\
0 1 refused start-outside\n\
0 2 refused goal-outside\n\
0 3 refused bad-shape\n",
    ),
    // near cells alike are taken in cell order
    (
        "{\"version\":1,\"size\":[3,3],\"callers\":1,\"classes\":[{\"name\":\"default\",\"clearance\":\"0\"}]}\n\
{\"base\":[[1,1,1,1,1]]}\n\
{\"caller\":0,\"path\":\"default\",\"from\":[\"0.5\",\"0.5\"],\"goal\":{\"point\":[\"1.5\",\"1.5\"]}}\n\
{\"caller\":0,\"region\":\"default\",\"at\":[\"1.5\",\"1.5\"]}\n\
{\"caller\":0,\"region\":\"default\",\"at\":[\"0.5\",\"0.5\"]}\n\
{\"end\":1}\n",
        Status::Done,
        "turn 1 regions 1 edges 0 areas 1 relabelled 0\n\
0 0 path 0 0 1 0 near 65536 1 1.5,0.5\n\
0 1 region 0 0 0 0\n\
0 2 region 0 0 1 1\n",
    ),
    // an obstruction blocks the classes of its mask alone
    (
        "{\"version\":2,\"size\":[3,1],\"callers\":1,\"classes\":[{\"name\":\"a\",\"clearance\":\"0\"},{\"name\":\"b\",\"clearance\":\"0\"}]}\n\
{\"caller\":0,\"add\":1,\"unit\":[\"1.5\",\"0.5\",\"0.25\"],\"mask\":2}\n\
{\"caller\":0,\"add\":2,\"unit\":[\"0.5\",\"0.5\",\"0.25\"],\"mask\":0}\n\
{\"caller\":0,\"path\":\"a\",\"from\":[\"0.5\",\"0.5\"],\"goal\":{\"point\":[\"2.5\",\"0.5\"]}}\n\
{\"caller\":0,\"path\":\"b\",\"from\":[\"0.5\",\"0.5\"],\"goal\":{\"point\":[\"2.5\",\"0.5\"]}}\n\
{\"end\":1}\n",
        Status::Done,
        "turn 1 regions 3 edges 0 areas 3 relabelled 1\n\
0 0 added 1\n\
0 1 added 2\n\
0 2 path 0 0 2 0 goal 131072 1 2.5,0.5\n\
0 3 path 0 0 0 0 near 0 0\n",
    ),
    // a move takes an obstruction to another place
    (
        "{\"version\":3,\"size\":[3,1],\"callers\":1,\"classes\":[{\"name\":\"default\",\"clearance\":\"0\"}]}\n\
{\"caller\":0,\"add\":1,\"unit\":[\"1.5\",\"0.5\",\"0.25\"],\"mask\":1}\n\
{\"end\":1}\n\
{\"caller\":0,\"move\":1,\"to\":[\"0.5\",\"0.5\"]}\n\
{\"caller\":0,\"move\":2,\"to\":[\"0.5\",\"0.5\"]}\n\
{\"caller\":0,\"move\":1,\"to\":[\"3\",\"0.5\"]}\n\
{\"caller\":0,\"region\":\"default\",\"at\":[\"0.5\",\"0.5\"]}\n\
{\"end\":2}\n",
        Status::Done,
        "turn 1 regions 2 edges 0 areas 2 relabelled 1\n\
0 0 added 1\n\
turn 2 regions 1 edges 0 areas 1 relabelled 1\n\
0 0 moved 1\n\
0 1 refused unknown-id\n\
0 2 refused bad-shape\n\
0 3 region 0 0 0 0\n",
    ),
    // a goal may be an obstruction with a distance
    (
        "{\"version\":3,\"size\":[5,1],\"callers\":1,\"classes\":[{\"name\":\"default\",\"clearance\":\"0\"}]}\n\
{\"caller\":0,\"add\":1,\"unit\":[\"2.5\",\"0.5\",\"0.25\"],\"mask\":1}\n\
{\"caller\":0,\"path\":\"default\",\"from\":[\"0.5\",\"0.5\"],\"goal\":{\"obstruction\":[1,\"1\"]}}\n\
{\"caller\":0,\"path\":\"default\",\"from\":[\"0.5\",\"0.5\"],\"goal\":{\"obstruction\":[1,\"0\"]}}\n\
{\"caller\":0,\"path\":\"default\",\"from\":[\"0.5\",\"0.5\"],\"goal\":{\"obstruction\":[2,\"0\"]}}\n\
{\"caller\":0,\"path\":\"default\",\"from\":[\"0.5\",\"0.5\"],\"goal\":{\"obstruction\":[2,\"3841\"]}}\n\
{\"end\":1}\n",
        Status::Done,
        "turn 1 regions 2 edges 0 areas 2 relabelled 1\n\
0 0 added 1\n\
0 1 path 0 0 1 0 goal 65536 1 1.5,0.5\n\
0 2 path 0 0 1 0 near 65536 1 1.5,0.5\n\
0 3 refused unknown-id\n\
0 4 refused bad-shape\n",
    ),
    // nowhere can be passed
    (
        "{\"version\":1,\"size\":[3,3],\"callers\":1,\"classes\":[{\"name\":\"default\",\"clearance\":\"0\"}]}\n\
{\"base\":[[0,0,2,2,1]]}\n\
{\"caller\":0,\"path\":\"default\",\"from\":[\"0.5\",\"0.5\"],\"goal\":{\"point\":[\"2.5\",\"2.5\"]}}\n\
{\"end\":1}\n",
        Status::Done,
        "turn 1 regions 0 edges 0 areas 0 relabelled 0\n\
0 0 nowhere\n",
    ),
    // a blocked start takes the first of two cells alike
    (
        "{\"version\":1,\"size\":[3,1],\"callers\":1,\"classes\":[{\"name\":\"default\",\"clearance\":\"0\"}]}\n\
{\"caller\":0,\"add\":1,\"unit\":[\"1.5\",\"0.5\",\"0.25\"]}\n\
{\"caller\":0,\"path\":\"default\",\"from\":[\"1.5\",\"0.5\"],\"goal\":{\"point\":[\"0.5\",\"0.5\"]}}\n\
{\"end\":1}\n",
        Status::Done,
        "turn 1 regions 2 edges 0 areas 2 relabelled 1\n\
0 0 added 1\n\
0 1 path 0 0 0 0 goal 0 0\n",
    ),
    // a circle without a radius touches the four cells about a corner
    (
        "{\"version\":1,\"size\":[4,4],\"callers\":1,\"classes\":[{\"name\":\"default\",\"clearance\":\"0\"}]}\n\
{\"caller\":0,\"path\":\"default\",\"from\":[\"0.5\",\"0.5\"],\"goal\":{\"circle\":[\"2\",\"2\",\"0\"]}}\n\
{\"end\":1}\n",
        Status::Done,
        "turn 1 regions 1 edges 0 areas 1 relabelled 0\n\
0 0 path 0 0 1 1 goal 92682 1 1.5,1.5\n",
    ),
    // outside of a circle, the first of four goal cells alike
    (
        "{\"version\":1,\"size\":[3,3],\"callers\":1,\"classes\":[{\"name\":\"default\",\"clearance\":\"0\"}]}\n\
{\"caller\":0,\"path\":\"default\",\"from\":[\"1.5\",\"1.5\"],\"goal\":{\"not-circle\":[\"1.5\",\"1.5\",\"1\"]}}\n\
{\"end\":1}\n",
        Status::Done,
        "turn 1 regions 1 edges 0 areas 1 relabelled 0\n\
0 0 path 1 1 1 0 goal 65536 1 1.5,0.5\n",
    ),
    // outside of a square, whose goal's box is the whole map
    (
        "{\"version\":1,\"size\":[5,5],\"callers\":1,\"classes\":[{\"name\":\"default\",\"clearance\":\"0\"}]}\n\
{\"caller\":0,\"path\":\"default\",\"from\":[\"2.5\",\"2.5\"],\"goal\":{\"not-square\":[\"2.5\",\"2.5\",\"1\",\"0\",\"1\",\"1\"]}}\n\
{\"end\":1}\n",
        Status::Done,
        "turn 1 regions 1 edges 0 areas 1 relabelled 0\n\
0 0 path 2 2 2 1 goal 65536 1 2.5,1.5\n",
    ),
    // a cell is blocked whose middle lies on the rim of an obstruction
    (
        "{\"version\":1,\"size\":[5,5],\"callers\":1,\"classes\":[{\"name\":\"default\",\"clearance\":\"1\"}]}\n\
{\"caller\":0,\"add\":1,\"square\":[\"2.5\",\"2.5\",\"0\",\"1\",\"1\",\"0.5\"]}\n\
{\"caller\":0,\"path\":\"default\",\"from\":[\"0.5\",\"0.5\"],\"goal\":{\"point\":[\"4.5\",\"0.5\"]}}\n\
{\"caller\":0,\"region\":\"default\",\"at\":[\"2.5\",\"0.5\"]}\n\
{\"end\":1}\n",
        Status::Done,
        "turn 1 regions 2 edges 0 areas 2 relabelled 1\n\
0 0 added 1\n\
0 1 path 0 0 1 0 near 65536 1 1.5,0.5\n\
0 2 region 0 0 0 0\n",
    ),
    // what two obstructions cover stays blocked until both are removed
    (COVER, Status::Done, COVER_ANSWERS),
    // an input without a map
    ("", Status::BadLine, "bad line 1\n"),
    // a line that no turn ends
    (
        "{\"version\":1,\"size\":[3,3],\"callers\":1,\"classes\":[{\"name\":\"default\",\"clearance\":\"0\"}]}\n\
{\"caller\":0,\"path\":\"default\",\"from\":[\"0.5\",\"0.5\"],\"goal\":{\"point\":[\"2.5\",\"2.5\"]}}\n\
{\"end\":1}\n\
{\"caller\":0,\"remove\":1}\n",
        Status::BadLine,
        "turn 1 regions 1 edges 0 areas 1 relabelled 0\n\
0 0 path 0 0 2 2 goal 185364 1 2.5,2.5\n\
bad line 5\n",
    ),
    // a script cut in its end line
    (
        "{\"version\":1,\"size\":[3,3],\"callers\":1,\"classes\":[{\"name\":\"default\",\"clearance\":\"0\"}]}\n\
{\"caller\":0,\"path\":\"default\",\"from\":[\"0.5\",\"0.5\"],\"goal\":{\"point\":[\"2.5\",\"2.5\"]}}\n\
{\"end\":",
        Status::BadLine,
        "bad line 3\n",
    ),
    // a mask in version 1
    (
        "{\"version\":1,\"size\":[3,1],\"callers\":1,\"classes\":[{\"name\":\"a\",\"clearance\":\"0\"},{\"name\":\"b\",\"clearance\":\"0\"}]}\n\
{\"caller\":0,\"add\":1,\"unit\":[\"1.5\",\"0.5\",\"0.25\"],\"mask\":2}\n\
{\"caller\":0,\"add\":2,\"unit\":[\"0.5\",\"0.5\",\"0.25\"],\"mask\":0}\n\
{\"caller\":0,\"path\":\"a\",\"from\":[\"0.5\",\"0.5\"],\"goal\":{\"point\":[\"2.5\",\"0.5\"]}}\n\
{\"caller\":0,\"path\":\"b\",\"from\":[\"0.5\",\"0.5\"],\"goal\":{\"point\":[\"2.5\",\"0.5\"]}}\n\
{\"end\":1}\n",
        Status::BadLine,
        "bad line 2\n",
    ),
];

/// Two obstructions over one cell, of which the larger is removed again.
pub(crate) const COVER: &str =
    "{\"version\":1,\"size\":[3,1],\"callers\":1,\"classes\":[{\"name\":\"default\",\"clearance\":\"0\"}]}\n\
{\"caller\":0,\"add\":1,\"unit\":[\"1.5\",\"0.5\",\"0.25\"]}\n\
{\"caller\":0,\"add\":2,\"unit\":[\"1.5\",\"0.5\",\"1\"]}\n\
{\"end\":1}\n\
{\"caller\":0,\"remove\":2}\n\
{\"end\":2}\n";

/// The answers to it.
pub(crate) const COVER_ANSWERS: &str = "turn 1 regions 0 edges 0 areas 0 relabelled 1\n\
0 0 added 1\n\
0 1 added 2\n\
turn 2 regions 2 edges 0 areas 2 relabelled 1\n\
0 0 removed 2\n";
