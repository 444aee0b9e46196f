/* SPDX-License-Identifier: MIT OR Apache-2.0 */
package lagvtsune;

import java.io.File;
import java.io.IOException;
import java.io.PrintStream;
import java.net.InetAddress;
import java.nio.charset.StandardCharsets;
import java.nio.file.Files;
import java.nio.file.Path;
import java.nio.file.StandardCopyOption;
import java.util.ArrayList;
import java.util.Arrays;
import java.util.Collection;
import java.util.HashMap;
import java.util.HashSet;
import java.util.IdentityHashMap;
import java.util.LinkedHashMap;
import java.util.List;
import java.util.Map;
import java.util.Set;
import java.util.concurrent.Callable;
import java.util.stream.Collectors;
import picocli.CommandLine;
import picocli.CommandLine.Command;
import picocli.CommandLine.Model.ArgSpec;
import picocli.CommandLine.Model.CommandSpec;
import picocli.CommandLine.Model.OptionSpec;
import picocli.CommandLine.Model.PositionalParamSpec;
import picocli.CommandLine.Option;
import picocli.CommandLine.Spec;

/**
 * Makes a tree file of a picocli program, for shell completion by complgen.
 *
 * <p>For any program, without a change of it, by the class of its {@code @Command}:
 *
 * <pre>java -cp app.jar:picocli.jar:. lagvtsune.GenerateTree com.example.App &gt; app.json</pre>
 *
 * <p>What the program's {@code main} adds is not seen then. In a program of your own, make it a subcommand:
 *
 * <pre>&#64;Command(name = "app", subcommands = {Add.class, GenerateTree.class})</pre>
 *
 * <p>This gives the program a hidden command:
 *
 * <pre>
 * app generate-tree                        # prints the tree file
 * app generate-tree --short                # the same, without the keys that no Tab reads
 * app generate-tree --out app.json         # writes it to a file, apart from what the program itself prints
 * app generate-tree --values 'remove id'   # prints the values of the parameter {@code id} of {@code remove}
 * </pre>
 *
 * <p>The tree file has the {@code completionCandidates} of the moment at which it is written. If their class implements
 * {@link Computed}, the tree file names the last call instead, so that a shell computes them at each Tab.
 */
@Command(name = "generate-tree", hidden = true, description = "Print the tree file for complgen")
public final class GenerateTree implements Callable<Integer> {
    /** Marks {@code completionCandidates} that are computed at each Tab. A tab in one begins its help text. */
    public interface Computed extends Iterable<String> {}

    private static final String PLAIN = "[A-Za-z0-9]+([-_][A-Za-z0-9]+)*";
    private static final String PLAIN_MEANING = "letters and digits, with single - or _ between";
    /** What bash offers as it is. */
    private static final String QUIET = "[A-Za-z0-9+\\-./:@_,=]+";
    /** Keys that no Tab reads. */
    private static final List<String> UNREAD =
            List.of("long_about", "after_help", "default_value", "subcommand_required");

    @Spec
    private CommandSpec spec;

    @Option(names = "--short", description = "Leave out the keys that no Tab reads")
    private boolean isShort;

    @Option(names = {"-o", "--out"}, paramLabel = "FILE", description = "Write the tree file here, as a whole or not at"
            + " all, apart from what the program itself prints")
    private Path out;

    @Option(names = "--values", paramLabel = "WORDS", description = "Print the values of an argument instead: the path"
            + " of subcommands, and then a name of the option or the label of the parameter")
    private String words;

    /** Prints the tree file, or the values of an argument. Returns the exit status. */
    @Override
    public Integer call() throws IOException {
        CommandLine program = spec.root().commandLine();
        String text = words == null ? treeFile(program, isShort) : values(program, words);
        if (out == null) {
            print(System.out, text);
            return 0;
        }
        Path part = Files.createTempFile(out.toAbsolutePath().getParent(), ".tree", ".json");
        Files.writeString(part, text);
        Files.move(part, out, StandardCopyOption.ATOMIC_MOVE);
        return 0;
    }

    /**
     * Prints the tree file of the program whose {@code @Command} is a class. What that class prints goes to the
     * standard error.
     *
     * @param words {@code --short}, if the file shall lack the keys that no Tab reads, and the name of the class
     */
    public static void main(String[] words) throws Exception {
        List<String> given = new ArrayList<>(List.of(words));
        boolean isShort = given.remove("--short");
        if (given.size() != 1) {
            System.err.println("usage: java lagvtsune.GenerateTree [--short] CLASS");
            System.exit(2);
        }
        PrintStream out = System.out;
        System.setOut(System.err);
        try {
            var maker = Class.forName(given.get(0)).getDeclaredConstructor();
            maker.setAccessible(true);
            print(out, treeFile(new CommandLine(maker.newInstance()), isShort));
        } catch (ReflectiveOperationException | LinkageError | CommandLine.PicocliException | IOException error) {
            error.printStackTrace();
            System.exit(1);
        }
        System.exit(0);
    }

    /**
     * Returns the text of a tree file. What a tree file cannot contain is left out, with a line on the standard error.
     *
     * @param isShort whether to leave out the keys that no Tab reads
     * @throws CommandLine.InitializationException if the name of the program is not plain, because no tree file would
     *     be found by it
     */
    public static String treeFile(CommandLine program, boolean isShort) {
        String name = program.getCommandName();
        if (!name.matches(PLAIN)) {
            throw new CommandLine.InitializationException(
                    name + ": the name of the program is not plain (" + PLAIN_MEANING + ")");
        }
        var exporter = new Exporter(isShort, hasCommand(program));
        return json(exporter.command(program.getCommandSpec(), List.of(name), List.of(), Set.of())) + "\n";
    }

    /**
     * Returns the values of an argument, a line each.
     *
     * @param words the path of subcommands, and then a name of the option or the label of the parameter
     */
    public static String values(CommandLine program, String words) {
        List<String> path = new ArrayList<>(List.of(words.split(" ")));
        String last = path.remove(path.size() - 1);
        for (String name : path) {
            program = program.getSubcommands().get(name);
        }
        ArgSpec arg = program.getCommandSpec().findOption(last);
        if (arg == null) {
            arg = program.getCommandSpec().positionalParameters().stream()
                    .filter(it -> nameOf(it).equals(last)).findFirst().orElseThrow();
        }
        var made = new StringBuilder();
        arg.completionCandidates().forEach(it -> made.append(it).append('\n'));
        return made.toString();
    }

    private static boolean hasCommand(CommandLine program) {
        return program.getSubcommands().values().stream().anyMatch(it -> it.getCommand() instanceof GenerateTree);
    }

    /** Writes a text as a whole, and fails if that is not possible. */
    private static void print(PrintStream out, String text) throws IOException {
        out.write(text.getBytes(StandardCharsets.UTF_8));
        out.flush();
        if (out.checkError()) {
            throw new IOException("standard output: write failed");
        }
    }

    private static void warn(List<String> path, String text) {
        System.err.println((String.join(" ", path) + ": " + text).replaceAll("\\s+", " "));
    }

    private static String nameOf(ArgSpec arg) {
        return arg.isOption() ? ((OptionSpec) arg).longestName() : arg.paramLabel().replaceAll("[<>]", "");
    }

    /** Describes the commands of a program, and leaves out what a tree file cannot contain. */
    private static final class Exporter {
        private final boolean isShort;
        private final boolean showsValues;
        private int unasked;
        /** The first command with each label: in bash, a hyphen is a step down, so `a b` is `a-b`. */
        private final Map<String, String> labels = new HashMap<>();

        Exporter(boolean isShort, boolean showsValues) {
            this.isShort = isShort;
            this.showsValues = showsValues;
        }

        /**
         * Returns a command. A further key is a line here.
         *
         * @param path the names that lead to the command
         * @param inherited the names of the global options above, and their ids
         */
        Map<String, Object> command(CommandSpec spec, List<String> path, List<String> aliases, Set<String> inherited) {
            var usage = spec.usageMessage();
            String about = text(usage.description());
            String header = text(usage.header());
            var made = new LinkedHashMap<String, Object>();
            made.put("name", path.get(path.size() - 1));
            made.put("about", (header.isEmpty() ? about : header).lines().findFirst().orElse(""));
            made.put("long_about", about);
            made.put("after_help", text(usage.footer()));
            made.put("visible_aliases", aliases);
            made.put("hide", usage.hidden());
            made.put("disable_help_flag", true);
            made.put("disable_help_subcommand", true);
            Set<String> taken = new HashSet<>(inherited);
            Set<String> below = new HashSet<>(inherited);
            var args = new ArrayList<Map<String, Object>>();
            var ids = new IdentityHashMap<ArgSpec, String>();
            for (OptionSpec it : spec.options()) {
                if (!it.inherited()) {
                    option(it, spec, path, taken, below, args, ids);
                }
            }
            for (PositionalParamSpec it : spec.positionalParameters()) {
                if (!it.inherited()) {
                    args.add(positional(it, path, taken, ids));
                }
            }
            for (var ofArg : ids.entrySet()) {
                conflicts(ofArg.getKey(), ofArg.getValue(), args, ids);
            }
            args.forEach(this::keep);
            made.put("args", args);
            List<Object> subcommands = subcommands(spec, path, below);
            made.put("subcommand_required", !subcommands.isEmpty()
                    && !(spec.userObject() instanceof Runnable || spec.userObject() instanceof Callable));
            made.put("subcommands", subcommands);
            return keep(made);
        }

        private List<Object> subcommands(CommandSpec spec, List<String> above, Set<String> inherited) {
            var names = new IdentityHashMap<CommandSpec, List<String>>();
            spec.subcommands().forEach((key, it) ->
                    names.computeIfAbsent(it.getCommandSpec(), one -> new ArrayList<>()).add(key));
            Set<String> taken = new HashSet<>();
            var made = new ArrayList<Object>();
            for (CommandSpec child : spec.subcommands().values().stream().map(CommandLine::getCommandSpec).distinct()
                    .filter(it -> !(it.userObject() instanceof GenerateTree)).collect(Collectors.toList())) {
                String name = child.name();
                List<String> path = new ArrayList<>(above);
                path.add(name);
                String label = String.join("-", path.subList(1, path.size()));
                String why = reason(name, PLAIN, taken.contains(name));
                if (why.isEmpty() && labels.containsKey(label)) {
                    why = "bash would know it and " + labels.get(label) + " by one name";
                }
                if (!why.isEmpty()) {
                    warn(path, "left out: " + why);
                    continue;
                }
                labels.put(label, String.join(" ", path));
                taken.add(name);
                var aliases = new ArrayList<String>();
                for (String alias : names.get(child)) {
                    String problem = alias.equals(name) ? "" : reason(alias, PLAIN, taken.contains(alias));
                    if (!problem.isEmpty()) {
                        warn(path, "the alias " + alias + " is left out: " + problem);
                    } else if (taken.add(alias)) {
                        aliases.add(alias);
                    }
                }
                made.add(command(child, path, aliases, inherited));
            }
            return made;
        }

        /** Adds the argument of an option, and a second one for its negative names. A further key is a line here. */
        private void option(OptionSpec option, CommandSpec spec, List<String> path, Set<String> taken,
                Set<String> below, List<Map<String, Object>> args, Map<ArgSpec, String> ids) {
            boolean isGlobal = option.scopeType() == CommandLine.ScopeType.INHERIT;
            var made = values(option, path);
            made.put("action", option.usageHelp() ? "Help" : option.versionHelp() ? "Version"
                    : option.arity().max() == 0 ? "SetTrue" : option.isMultiValue() ? "Append" : null);
            made.put("global", isGlobal);
            List<List<String>> forms = new ArrayList<>(List.of(List.of(option.names())));
            if (option.negatable()) {
                var transformer = spec.negatableOptionTransformer();
                forms.add(Arrays.stream(option.names()).filter(it -> it.startsWith("--"))
                        .map(it -> transformer.makeNegative(it, spec)).collect(Collectors.toList()));
            }
            for (List<String> form : forms) {
                var one = new LinkedHashMap<>(made);
                if (form != forms.get(0)) {
                    one.replace("action", "SetTrue", "SetFalse");
                }
                List<String> left = names(form, one, path, taken);
                if (left.isEmpty()) {
                    continue;
                }
                String id = unused(left.stream().filter(it -> it.startsWith("--")).findFirst().orElse(left.get(0))
                        .replaceFirst("^--", ""), taken);
                one.put("id", id);
                ids.putIfAbsent(option, id);
                if (isGlobal) {
                    below.addAll(left);
                    below.add("id " + id);
                }
                args.add(one);
            }
        }

        private List<String> names(List<String> form, Map<String, Object> made, List<String> path, Set<String> taken) {
            var left = new ArrayList<String>();
            for (String name : form) {
                String why = name.startsWith("--") ? reason(name.substring(2), PLAIN, taken.contains(name))
                        : !name.matches("-[A-Za-z0-9]") ? "a tree file has only names such as -x and --name"
                        : reason(name, ".+", taken.contains(name));
                if (why.isEmpty()) {
                    left.add(name);
                    taken.add(name);
                } else {
                    warn(path, name + " is left out: " + why);
                }
            }
            var longs = left.stream().filter(it -> it.startsWith("--")).map(it -> it.substring(2))
                    .collect(Collectors.toList());
            var shorts = left.stream().filter(it -> !it.startsWith("--")).map(it -> it.substring(1))
                    .collect(Collectors.toList());
            if (!longs.isEmpty()) {
                made.put("long", longs.get(0));
                made.put("visible_aliases", longs.subList(1, longs.size()));
            }
            if (!shorts.isEmpty()) {
                made.put("short", shorts.get(0));
                made.put("visible_short_aliases", shorts.subList(1, shorts.size()));
            }
            return left;
        }

        /** Returns a positional argument. A further key is a line here. */
        private Map<String, Object> positional(PositionalParamSpec positional, List<String> path, Set<String> taken,
                Map<ArgSpec, String> ids) {
            var made = values(positional, path);
            made.computeIfPresent("help", (key, it) -> ((String) it).replace('\\', '/'));
            if (positional.index().isVariable()) {
                made.put("num_args", Arrays.asList(Math.min(positional.arity().min(), 255), null));
            }
            String id = unused(nameOf(positional), taken);
            made.put("id", id);
            ids.put(positional, id);
            return made;
        }

        /** Returns the keys that options and positionals share. A further key is a line here. */
        private Map<String, Object> values(ArgSpec arg, List<String> path) {
            var made = new LinkedHashMap<String, Object>();
            made.put("help", text(arg.description()));
            made.put("hide", arg.hidden());
            // Of a group, picocli says which of its arguments are required together.
            made.put("required", arg.required() && arg.group() == null);
            if (arg.group() != null && arg.group().heading() != null) {
                made.put("help_heading", text(arg.group().heading()).replaceAll(":?\\s*$", ""));
            }
            var arity = arg.arity();
            if (arity.max() == 0) {
                return made;
            }
            made.put("num_args", Arrays.asList(Math.min(arity.min(), 255), arity.isVariable() ? null : arity.max()));
            made.put("value_names", List.of(text(arg.paramLabel()).replaceAll("^<(.*)>$", "$1")
                    .replaceAll("[:\\\\\n]", "-").replace('\'', '"')));
            made.put("default_value", arg.defaultValue());
            made.put("value_delimiter", arg.splitRegex().matches("[^.^$*+?(\\[{|]|\\\\[.^$*+?(\\[{|]")
                    ? arg.splitRegex().replace("\\", "") : null);
            if (arg.completionCandidates() instanceof Computed) {
                if (showsValues) {
                    String words = String.join(" ", path.subList(1, path.size())) + " " + nameOf(arg);
                    made.put("values_from", List.of(path.get(0), "generate-tree", "--values", words.strip()));
                } else {
                    warn(path, "the values of " + nameOf(arg)
                            + " are left out, because the program has no subcommand GenerateTree");
                }
                return made;
            }
            if (arg.completionCandidates() != null) {
                made.put("possible_values", quiet(arg, path));
            }
            Class<?>[] types = arg.auxiliaryTypes();
            Class<?> type = arg.typeInfo().isMultiValue() ? types[types.length - 1] : arg.type();
            made.put("value_hint", File.class.isAssignableFrom(type) || Path.class.isAssignableFrom(type) ? "AnyPath"
                    : InetAddress.class.isAssignableFrom(type) ? "Hostname"
                    : type.isPrimitive() || Number.class.isAssignableFrom(type) ? "Other" : null);
            return made;
        }

        private static List<Object> quiet(ArgSpec arg, List<String> path) {
            Set<String> seen = new HashSet<>();
            var made = new ArrayList<Object>();
            for (String it : arg.completionCandidates()) {
                if (!it.matches(QUIET)) {
                    warn(path, "the value \"" + it + "\" of " + nameOf(arg)
                            + " is left out: a script could split or run it");
                } else if (seen.add(it)) {
                    made.add(Map.of("name", it));
                }
            }
            return made;
        }

        /** Adds the ids of the arguments that exclude one: those of its exclusive group. */
        private void conflicts(ArgSpec arg, String id, List<Map<String, Object>> args, Map<ArgSpec, String> ids) {
            if (arg.group() == null || !arg.group().exclusive()) {
                return;
            }
            var others = arg.group().args().stream().filter(it -> it != arg).map(ids::get)
                    .filter(it -> it != null).collect(Collectors.toList());
            args.stream().filter(it -> it.get("id").equals(id)).forEach(it -> it.put("conflicts_with", others));
        }

        private static String reason(String name, String pattern, boolean isTaken) {
            return !name.matches(pattern) ? "it is not plain (" + PLAIN_MEANING + ")"
                    : isTaken ? "an earlier one has this name" : "";
        }

        private static String unused(String wanted, Set<String> taken) {
            String plain = wanted.replaceAll("[':\\\\\\s]+", " ").strip();
            String id = plain;
            for (int number = 2; !taken.add("id " + id); number++) {
                id = plain + " " + number;
            }
            return id;
        }

        /** Removes the keys that say nothing. */
        private Map<String, Object> keep(Map<String, Object> made) {
            made.entrySet().removeIf(it -> it.getValue() == null || it.getValue().equals(false)
                    || it.getValue().equals("") || (isShort && UNREAD.contains(it.getKey()))
                    || (it.getValue() instanceof Collection && ((Collection<?>) it.getValue()).isEmpty()));
            return made;
        }
    }

    /** Returns lines as picocli prints them: without its marks for colours, and signs that no script can contain. */
    private static String text(String... lines) {
        String text = String.join("\n", lines).replace("%n", "\n").replace("%%", "%");
        return CommandLine.Help.Ansi.OFF.string(text).replaceAll("[\u2018-\u201b]", "'")
                .replaceAll("[\\x00-\\x08\\x0b-\\x1f\\x7f]", "").strip();
    }

    private static String json(Object it) {
        if (it instanceof Map) {
            return ((Map<?, ?>) it).entrySet().stream().map(one -> json(one.getKey()) + ": " + json(one.getValue()))
                    .collect(Collectors.joining(",\n ", "{", "}"));
        }
        if (it instanceof Collection) {
            return ((Collection<?>) it).stream().map(GenerateTree::json).collect(Collectors.joining(", ", "[", "]"));
        }
        if (!(it instanceof String)) {
            return String.valueOf(it);
        }
        var made = new StringBuilder("\"");
        ((String) it).chars().forEach(c -> made.append(
                c == '"' || c == '\\' ? "\\" + (char) c : c < ' ' ? String.format("\\u%04x", c) : "" + (char) c));
        return made.append('"').toString();
    }
}
