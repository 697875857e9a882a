// node --test examples/clients/cache.test.js
const test = require("node:test");
const path = require("path");
const { check } = require("./pst_client.js");
const { Cache, OrderedCache } = require("./cache.js");
const model = path.join(__dirname, "../cache.model");

test("a cache whose functions take turns", () => check(model, () => new OrderedCache(), ["--trials", "20"]));

// This test fails, with the race as its message.
test("a cache that looks before it adds", () => check(model, () => new Cache(), ["--trials", "20", "--limit", "100"]));
