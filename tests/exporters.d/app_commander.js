// SPDX-License-Identifier: MIT OR Apache-2.0
// Keeps notes. It has each thing that Commander can tell its exporter, and names that no tree file can contain.
"use strict";
const { Command, Option, Argument } = require("commander");

const notes = () => [["n1", "Buy milk"], ["c2", "Call Ann"]];
const program = new Command();
require("../../packages/javascript/commander").add(program);
console.log("this is no part of a tree");
program.name("app").description("Keeps notes\nand more").version("1.0");
program.addOption(new Option("--color <when>", "when to use colours").choices(["auto", "always", "never"]));
const run = (...given) => console.log("ran", given.length);
const add = program.command("add <file...>").description("adds notes").action(run);
const topic = new Option("-t, --topic <topic>", "the topic of the note");
topic.completer = notes;
const from = new Option("--from [file]", "a file with notes").default("notes.txt");
from.treeKeys = { value_hint: "FilePath" };
add.addOption(topic).addOption(from).option("--no-pin", "do not keep the note on top").option("--label <labels...>", "labels");
add.addOption(new Option("--pin", "keep the note on top").conflicts("loose")).option("--loose", "do not");
add.addOption(new Option("--old", "an old option").hideHelp()).requiredOption("--copies <n>", "how many");
add.option("-xy", "a name that is not plain").option("--color <again>", "an option of the program has this name");
const id = new Argument("<id>", "a note with a \\ in its text");
id.completer = notes;
program.command("remove").alias("rm").alias("r.m").description("removes a note").addArgument(id).action(run);
const list = program.command("list").description("lists notes").action(run);
list.addArgument(new Argument("<it's:first>"));
list.addArgument(new Argument("[what]", "which").choices(["all", "new", "$(x)"]));
program.command("secret", { hidden: true }).action(run);
program.command("remote").description("other places").command("add <url>").description("adds a place").action(run);
program.command("remote-add").description("has the label of remote add").action(run);
program.command("odd.name").description("has a name that is not plain").action(run);
program.parse();
