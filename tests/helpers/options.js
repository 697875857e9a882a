// Gives options to `check` of pst_client.js, as an object or as words: in two spellings, twice, and those that it sets itself.
const [client, model, form] = process.argv.slice(2);
const { check } = require(client);
const options = {
  object: { trials: 7, branches: 3, workers: 2, limit: 50, max_failures: 9, maxFailures: 1 },
  words: ["--trials", "9", "--workers=2", "--branches", "3", "--limit=50", "--max_failures", "1", "--trials=7"],
};
check(model, () => ({ "give-back": async (...values) => values }), options[form]);
