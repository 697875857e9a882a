// A server of numbers, each in a file of the folder FOLDER: an increase awaits the read, and then the write. The window has some 100 microseconds.
const { readFile, writeFile } = require("fs").promises;
const net = require("net");
const readline = require("readline");

async function answer(line) {
  const [object, name] = line.split(" ");
  const file = `${process.env.FOLDER}/${object}`;
  if (name === "reset") {
    await writeFile(file, "0");
    return 0;
  }
  const number = Number(await readFile(file, "utf8"));
  if (name === "inc") await writeFile(file, String(number + 1));
  return name === "inc" ? number + 1 : number;
}

net.createServer((client) => {
  client.setNoDelay(true);
  client.on("error", () => {});
  readline.createInterface({ input: client }).on("line", async (line) => client.write(`${await answer(line)}\n`));
}).listen(Number(process.argv[2]), "127.0.0.1");
