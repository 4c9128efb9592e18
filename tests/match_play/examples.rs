//! The examples of the repository, with their answers.

/// `examples/first.script`.
pub const FIRST: &[&str] = &[
    "{\"version\":1,\"size\":[5,4],\"callers\":1,\"classes\":[{\"name\":\"infantry\",\"clearance\":\"0\"}]}\n",
    "{\"caller\":0,\"path\":\"infantry\",\"from\":[\"0.5\",\"0.5\"],\"goal\":{\"point\":[\"4.5\",\"3.5\"]}}\n",
    "{\"caller\":0,\"path\":\"infantry\",\"from\":[\"3.5\",\"1.5\"],\"goal\":{\"point\":[\"0.5\",\"0.5\"]}}\n",
    "{\"caller\":0,\"path\":\"infantry\",\"from\":[\"2.5\",\"2.5\"],\"goal\":{\"point\":[\"2.5\",\"2.5\"]}}\n",
    "{\"end\":1}\n",
];

/// `examples/first.answers`.
pub const FIRST_ANSWERS: &[&str] = &[
    "turn 1 regions 1 edges 0 areas 1 relabelled 0\n",
    "0 0 path 0 0 4 3 goal 343582 2 3.5,3.5 4.5,3.5\n",
    "0 1 path 3 1 0 0 goal 223754 2 2.5,0.5 0.5,0.5\n",
    "0 2 path 2 2 2 2 goal 0 0\n",
];

/// `examples/skirmish.script`.
pub const SKIRMISH: &[&str] = &[
    "{\"version\":3,\"size\":[12,8],\"callers\":2,\"classes\":[{\"name\":\"infantry\",\"clearance\":\"0.5\"},{\"name\":\"siege\",\"clearance\":\"1.5\"}]}\n",
    "{\"base\":[[0,7,11,7,3]]}\n",
    "{\"caller\":0,\"add\":1,\"square\":[\"6\",\"3\",\"1\",\"0\",\"0.5\",\"2\"],\"mask\":3}\n",
    "{\"caller\":0,\"path\":\"infantry\",\"from\":[\"1.5\",\"1.5\"],\"goal\":{\"obstruction\":[1,\"1\"]}}\n",
    "{\"caller\":1,\"path\":\"siege\",\"from\":[\"10.5\",\"3.5\"],\"goal\":{\"circle\":[\"1.5\",\"3.5\",\"1\"]}}\n",
    "{\"caller\":1,\"region\":\"siege\",\"at\":[\"6.5\",\"3.5\"]}\n",
    "{\"end\":1}\n",
    "{\"caller\":1,\"path\":\"siege\",\"from\":[\"10.5\",\"3.5\"],\"goal\":{\"circle\":[\"1.5\",\"3.5\",\"1\"]}}\n",
    "{\"caller\":0,\"move\":1,\"to\":[\"6\",\"1\"]}\n",
    "{\"caller\":0,\"remove\":2}\n",
    "{\"end\":2}\n",
];

/// `examples/skirmish.answers`.
pub const SKIRMISH_ANSWERS: &[&str] = &[
    "turn 1 regions 3 edges 0 areas 3 relabelled 2\n",
    "0 0 added 1\n",
    "0 1 path 1 1 4 1 goal 196608 1 4.5,1.5\n",
    "1 0 path 10 3 7 6 near 316436 3 8.5,5.5 8.5,6.5 7.5,6.5\n",
    "1 1 region 0 0 0 0\n",
    "turn 2 regions 2 edges 0 areas 2 relabelled 2\n",
    "0 0 moved 1\n",
    "0 1 refused unknown-id\n",
    "1 0 path 10 3 2 4 goal 605726 4 8.5,5.5 4.5,5.5 3.5,4.5 2.5,4.5\n",
];
