// SPDX-License-Identifier: MIT OR Apache-2.0
"use strict";
/**
 * Makes a tree file of a Commander program, for shell completion by complgen.
 *
 * For any program, without a change of it:
 *
 *     node -r ./commander.js app.js > app.json            // runs app.js up to its parse
 *     node ./commander.js --short app.js > app.json       // the same, without the keys that no Tab reads
 *
 * In a program of your own:
 *
 *     require("./commander").add(program);                // before program.parse()
 *
 * gives it two hidden options:
 *
 *     app --complgen-tree                                 // prints the tree file
 *     app --complgen-values "remove id"                   // prints the values of the argument `id` of `remove`
 *
 * Two properties of an option or an argument are read:
 *
 * - `completer`, a function that returns values, or pairs of a value and its help text. They are offered at a Tab if
 *   the program calls `add`. The function does not learn what was typed.
 * - `treeKeys`, an object with further keys for the tree file, such as {value_hint: "FilePath"}.
 *
 * @module
 */
const { execFileSync, spawnSync } = require("child_process");
const fs = require("fs");
const Module = require("module");
const path = require("path");

const TREE_OPTION = "--complgen-tree";
const VALUES_OPTION = "--complgen-values";
const OWN = [TREE_OPTION, VALUES_OPTION];
const UNREAD = ["long_about", "after_help", "default_value", "subcommand_required"];
// Keys of which an argument has one at most.
const SOURCES = ["values_from", "values_file", "possible_values", "value_hint"];
const PLAIN = /^[A-Za-z0-9]+([-_][A-Za-z0-9]+)*$/;
const PLAIN_MEANING = "letters and digits, with single - or _ between";
// What bash offers as it is.
const QUIET = /^[A-Za-z0-9+\-./:@_,=]+$/;
const CONTROLS = /\x1b\[[0-9;]*[A-Za-z]|[\x00-\x08\x0b-\x1f\x7f]/g;
// In the run of a program, the descriptor to which its tree file goes, and the form of the file.
const DESCRIPTOR = "LAGVTSUNE_TREE_DESCRIPTOR";
const SHORT = "LAGVTSUNE_TREE_SHORT";

/**
 * Adds the two hidden options to a program. If one of them is called, what the program prints from here on goes to the
 * standard error, so that it does not mix with the answer.
 *
 * @param {import("commander").Command} program
 */
function add(program) {
  if (OWN.includes(process.argv[2])) process.stdout.write = process.stderr.write.bind(process.stderr);
  const end = (text) => {
    fs.writeFileSync(1, text);
    process.exit(0);
  };
  program.option(TREE_OPTION).option(`${VALUES_OPTION} <words>`);
  program.options.slice(-2).forEach((it) => it.hideHelp());
  program.on("option:complgen-tree", () => end(treeFile(program)));
  program.on("option:complgen-values", (words) => end(values(program, words).map((line) => `${line}\n`).join("")));
}

/**
 * Returns the text of a tree file. What a tree file cannot contain is left out, with a line on the standard error.
 *
 * @param {import("commander").Command} program
 * @param {{short?: boolean}} [settings] With `short`, the file lacks the keys that no Tab reads, and spaces.
 * @returns {string}
 * @throws {Error} If the program's name is not plain, because no tree file would be found by it.
 */
function treeFile(program, settings = {}) {
  const name = program.name() || nameOf(process.argv[1]);
  if (!PLAIN.test(name)) throw new Error(`${name}: the name of the program is not plain (${PLAIN_MEANING})`);
  const exporter = { name, showsValues: program.options.some((it) => it.long === VALUES_OPTION), unasked: 0 };
  const made = { ...command(program, [], exporter), name };
  if (exporter.unasked) {
    const why = "because the program does not call add";
    warn([name], `values of completers are left out: ${exporter.unasked} arguments, ${why}`);
  }
  const tree = finish(made, [], new Set(), { short: settings.short, labels: new Map() });
  return JSON.stringify(tree, null, settings.short ? 0 : 1) + "\n";
}

/**
 * Returns the lines that the completer of an option or an argument makes: a value, or a value, a tab and its help text.
 *
 * @param {import("commander").Command} program
 * @param {string} words The path of subcommands, and then a name of the option or the name of the argument.
 * @returns {string[]}
 */
function values(program, words) {
  const names = words.split(" ");
  const last = names.pop();
  const cmd = names.reduce((found, name) => found.commands.find((it) => it.name() === name), program);
  const named = (it) => it.long === last || it.short === last;
  const found = cmd.options.find(named) || argumentsOf(cmd).find((it) => it.name() === last);
  return found.completer().map((it) => [it].flat().join("\t"));
}

const nameOf = (file) => path.basename(file).replace(/\.[cm]?js$/, "");
const argumentsOf = (cmd) => cmd.registeredArguments || cmd._args;
const idOf = (option) => (option.long || option.short).replace(/^-+/, "");

/** Returns a command: its options, its arguments and its subcommands. A further key is a line here. */
function command(cmd, above, exporter) {
  const words = [...above, cmd.name()].slice(1);
  const names = [...above, cmd.name()];
  const help = cmd.createHelp();
  const generated = help.visibleOptions(cmd).filter((it) => !cmd.options.includes(it));
  const own = cmd.options.filter((it) => !OWN.includes(it.long));
  // Commander reads the options of a command also after a subcommand.
  const global = cmd.commands.length > 0 && !cmd._enablePositionalOptions;
  return {
    name: cmd.name(),
    about: (cmd.summary && cmd.summary()) || cmd.description().split("\n")[0],
    long_about: cmd.description(),
    visible_aliases: cmd.aliases(),
    hide: cmd._hidden,
    disable_help_flag: true,
    disable_help_subcommand: help.visibleCommands(cmd).every((it) => cmd.commands.includes(it)),
    subcommand_required: cmd.commands.length > 0 && !cmd._actionHandler && !cmd._defaultCommandName,
    args: [
      ...own.map((it) => ({ ...option(it, cmd, words, exporter), global })),
      ...generated.map((it) => ({ ...option(it, cmd, words, exporter), action: "Help" })),
      ...argumentsOf(cmd).map((it) => argument(it, words, exporter)),
    ],
    subcommands: cmd.commands.map((it) =>
      it._executableHandler ? executable(it, cmd, names, exporter) : command(it, names, exporter)
    ),
  };
}

/** Returns the argument of an option. A further key is a line here. */
function option(it, cmd, words, exporter) {
  const shown = it.flags.match(/[<[]([^>\]]*?)(\.\.\.)?[>\]]/);
  const isVersion = it.attributeName() === cmd._versionOptionName;
  const others = cmd.options.filter((one) => (it.conflictsWith || []).includes(one.attributeName()));
  const made = {
    id: idOf(it),
    names: [it.long, it.short].filter(Boolean),
    help: it.description,
    hide: it.hidden,
    required: it.mandatory,
    conflicts_with: others.map(idOf),
  };
  if (!it.required && !it.optional) {
    return { ...made, action: isVersion ? "Version" : it.negate ? "SetFalse" : "SetTrue" };
  }
  const keys = { num_args: [it.optional ? 0 : 1, it.variadic ? null : 1], value_names: [shown[1]] };
  return { ...made, ...keys, ...sources(it, [...words, it.long || it.short], exporter) };
}

/** Returns a positional argument. A further key is a line here. */
function argument(it, words, exporter) {
  return {
    id: it.name() || "arg",
    value_names: [it.name() || "arg"],
    help: it.description,
    required: it.required,
    num_args: [it.required ? 1 : 0, it.variadic ? null : 1],
    ...sources(it, [...words, it.name()], exporter),
  };
}

/** Returns the keys for the values of an option or an argument. */
function sources(it, words, exporter) {
  const isShort = ["string", "number"].includes(typeof it.defaultValue);
  const made = { default_value: isShort ? String(it.defaultValue) : undefined };
  if (it.argChoices) made.possible_values = it.argChoices.map((name) => ({ name: String(name) }));
  else if (it.completer && exporter.showsValues) made.values_from = [exporter.name, VALUES_OPTION, words.join(" ")];
  else if (it.completer) exporter.unasked += 1;
  if (SOURCES.some((key) => key in (it.treeKeys || {}))) SOURCES.forEach((key) => delete made[key]);
  return { ...made, ...it.treeKeys };
}

/** Returns the tree of a subcommand that is a program of its own. */
function executable(it, cmd, above, exporter) {
  const own = command(it, above, exporter);
  const script = fs.realpathSync(cmd._scriptPath || process.argv[1]);
  const name = it._executableFile || `${cmd.name()}-${it.name()}`;
  const base = path.resolve(path.dirname(script), cmd._executableDir || "", name);
  const file = [base, `${base}.js`, `${base}.cjs`].find((one) => fs.existsSync(one));
  try {
    if (!file) throw new Error("its program was not found");
    const given = { encoding: "utf8", input: "", maxBuffer: 1 << 28, env: withoutDescriptor() };
    const text = execFileSync(process.execPath, ["-r", __filename, file], { ...given, stdio: ["pipe", "pipe", 2] });
    const found = raw(JSON.parse(text));
    return { ...found, name: own.name, about: own.about || found.about, visible_aliases: own.visible_aliases };
  } catch (error) {
    warn([...above, it.name()], `its options are left out: ${error.message.split("\n")[0]}`);
    return own;
  }
}

/** Returns a finished command as `finish` takes one. */
function raw(made) {
  const names = (it) => [
    ...[it.long, ...(it.visible_aliases || [])].filter(Boolean).map((name) => `--${name}`),
    ...[it.short, ...(it.visible_short_aliases || [])].filter(Boolean).map((name) => `-${name}`),
  ];
  const args = (made.args || []).map((it) => (it.long || it.short ? { ...it, names: names(it) } : it));
  return { ...made, args, subcommands: (made.subcommands || []).map(raw) };
}

function withoutDescriptor() {
  const { [DESCRIPTOR]: _, ...environment } = process.env;
  return environment;
}

// ---- what a tree file cannot contain

function warn(at, text) {
  console.error(`${at.join(" ")}: ${text}`.replace(/\s+/g, " "));
}

/** Returns why a name cannot be used here, or an empty text. */
function reason(name, isPlain, isTaken) {
  if (!isPlain) return `it is not plain (${PLAIN_MEANING})`;
  return isTaken ? "an earlier one has this name" : "";
}

/**
 * Returns a command without what a tree file cannot contain. `inherited` has the names of the global options above, as
 * `-x` or `--name`, and their ids.
 */
function finish(made, above, inherited, settings) {
  const at = [...above, made.name];
  const taken = new Set(inherited);
  const below = new Set(inherited);
  const args = made.args.map((it) => finishArgument(it, at, taken, below, settings)).filter(Boolean);
  const ids = new Set(args.map((it) => it.id));
  for (const it of args) {
    if (it.conflicts_with) it.conflicts_with = it.conflicts_with.filter((id) => ids.has(id) && id !== it.id);
  }
  const names = new Set();
  const subcommands = [];
  for (const child of made.subcommands) {
    const path = [...at, child.name];
    // In bash, a hyphen is a step down, so `a b` is `a-b`.
    const label = path.slice(1).join("-");
    let why = reason(child.name, PLAIN.test(child.name), names.has(child.name));
    if (!why && settings.labels.has(label)) why = `bash would know it and ${settings.labels.get(label)} by one name`;
    if (why) {
      warn(path, `left out: ${why}`);
      continue;
    }
    settings.labels.set(label, path.join(" "));
    names.add(child.name);
    const aliases = (child.visible_aliases || []).filter((alias) => {
      const problem = reason(alias, PLAIN.test(alias), names.has(alias));
      if (problem) warn(path, `the alias ${alias} is left out: ${problem}`);
      names.add(alias);
      return !problem;
    });
    subcommands.push(finish({ ...child, visible_aliases: aliases }, at, below, settings));
  }
  made.subcommand_required = made.subcommand_required && subcommands.length > 0;
  return kept({ ...made, args: args.map((it) => kept(it, settings)), subcommands }, settings);
}

function finishArgument(given, at, taken, below, settings) {
  const { names, ...made } = given;
  const left = names && names.filter((name) => {
    const isLong = name.startsWith("--");
    const why = isLong || /^-[A-Za-z0-9]$/.test(name)
      ? reason(name, !isLong || PLAIN.test(name.slice(2)), taken.has(name))
      : "a tree file has only names such as -x and --name";
    if (why) warn(at, `${name} is left out: ${why}`);
    else taken.add(name);
    return !why;
  });
  if (left && left.length === 0) return undefined;
  if (left) {
    const [long, ...longs] = left.filter((name) => name.startsWith("--")).map((name) => name.slice(2));
    const [short, ...shorts] = left.filter((name) => !name.startsWith("--")).map((name) => name.slice(1));
    Object.assign(made, { long, short, visible_aliases: longs, visible_short_aliases: shorts });
  } else if (made.help) {
    made.help = made.help.replace(/\\/g, "/");
  }
  made.id = made.id.replace(/[':\\\s]+/g, " ").trim() || "arg";
  for (let number = 2, wanted = made.id; taken.has(`id ${made.id}`); number++) made.id = `${wanted} ${number}`;
  taken.add(`id ${made.id}`);
  if (made.global) [...(left || []), `id ${made.id}`].forEach((it) => below.add(it));
  if (made.value_names) {
    made.value_names = made.value_names.map((it) => text(it).replace(/[:\\\n]/g, "-").replace(/'/g, '"'));
  }
  if (made.possible_values) {
    const seen = new Set();
    made.possible_values = made.possible_values.filter(({ name }) => {
      const shown = `the value ${JSON.stringify(name)} of ${made.id}`;
      if (!QUIET.test(name)) warn(at, `${shown} is left out: a script could split or run it`);
      return QUIET.test(name) && !seen.has(name) && seen.add(name);
    });
  }
  return made;
}

/** Returns a text without colours and signs that no script can contain. */
const text = (it) => it.replace(CONTROLS, "").replace(/[\u2018-\u201b]/g, "'").trim();

/** Returns the keys that say something. */
function kept(made, settings = {}) {
  const says = (key, it) => it !== undefined && it !== null && it !== false && it !== "" && it.length !== 0
    && !(settings.short && UNREAD.includes(key));
  const clean = Object.entries(made).map(([key, it]) => [key, typeof it === "string" ? text(it) : it]);
  return Object.fromEntries(clean.filter((pair) => says(...pair)));
}

// ---- the run of a program

/**
 * Runs a program, and prints the tree file that it makes at its parse. What the program itself prints goes to the
 * standard error. Ends with status 1 if there is no whole tree file.
 */
function runProgram(words, short) {
  const environment = { ...process.env, [DESCRIPTOR]: "3", ...(short ? { [SHORT]: "1" } : {}) };
  const given = { stdio: ["inherit", 2, 2, "pipe"], maxBuffer: 1 << 28, env: environment };
  const ran = spawnSync(process.execPath, words, given);
  const made = ran.status === 0 && ran.output ? ran.output[3] : "";
  const program = words[words.length - 1];
  if (ran.error) console.error(`${program}: ${ran.error.message}`);
  else if (ran.status === 0 && !made.length) {
    console.error(`${program}: it ended before Commander parsed its command line, so there is no tree file`);
  }
  try {
    if (made.length) fs.writeFileSync(1, made);
    process.exit(made.length ? 0 : 1);
  } catch (error) {
    console.error(`standard output: write failed: ${error.message}`);
    process.exit(1);
  }
}

/** Makes the first parse of a program write its tree file, and end the process. */
function stopAtParse() {
  const descriptor = Number(process.env[DESCRIPTOR]);
  const short = Boolean(process.env[SHORT]);
  delete process.env[DESCRIPTOR];
  function stop(words) {
    let status = 1;
    try {
      if (!this._name) this._name = nameOf((words || process.argv)[1]);
      fs.writeFileSync(descriptor, treeFile(this, { short }));
      status = 0;
    } catch (error) {
      console.error(error.message);
    }
    process.removeAllListeners("exit");
    process.exit(status);
  }
  const load = Module._load;
  Module._load = function (...words) {
    const loaded = load.apply(this, words);
    const found = loaded && Object.getOwnPropertyDescriptor(Object(loaded), "Command")?.value?.prototype;
    if (found && found.createHelp && found.parse !== stop) found.parse = found.parseAsync = stop;
    return loaded;
  };
}

const isPreloaded = module.parent === undefined || module.parent === null || module.parent.id === "internal/preload";
if (require.main === module) {
  const words = process.argv.slice(2);
  const short = words[0] === "--short";
  if (short) words.shift();
  if (words.length !== 1) {
    console.error("usage: node commander.js [--short] APP.js");
    process.exit(2);
  }
  runProgram(["-r", __filename, path.resolve(words[0])], short);
} else if (isPreloaded && process.env[DESCRIPTOR]) {
  stopAtParse();
} else if (isPreloaded) {
  runProgram([...process.execArgv, ...process.argv.slice(1)], false);
}

module.exports = { add, treeFile, values };
