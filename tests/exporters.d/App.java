/* SPDX-License-Identifier: MIT OR Apache-2.0 */

import java.net.InetAddress;
import java.nio.file.Path;
import java.util.Iterator;
import java.util.List;
import lagvtsune.GenerateTree;
import picocli.CommandLine;
import picocli.CommandLine.ArgGroup;
import picocli.CommandLine.Command;
import picocli.CommandLine.Option;
import picocli.CommandLine.Parameters;
import picocli.CommandLine.ScopeType;

/** Keeps notes. It has each thing that picocli can tell its exporter, and names that no tree file can contain. */
@Command(name = "app", description = "Keeps notes%nand more", footer = "The end.", mixinStandardHelpOptions = true,
        subcommands = {App.Add.class, App.Remove.class, App.List_.class, App.Secret.class, App.Remote.class,
            App.Clash.class, App.Odd.class, GenerateTree.class})
public class App {
    static {
        System.out.println("this is no part of a tree");
    }

    enum When { auto, always, never }

    /** Values that the program computes. */
    static class Notes implements GenerateTree.Computed {
        @Override
        public Iterator<String> iterator() {
            return List.of("n1\tBuy milk", "c2\tCall Ann").iterator();
        }
    }

    /** Values of which one is none that a script can contain. */
    static class Whats implements Iterable<String> {
        @Override
        public Iterator<String> iterator() {
            return List.of("all", "new", "$(x)").iterator();
        }
    }

    @Option(names = "--color", scope = ScopeType.INHERIT, description = "When to use @|bold colours|@")
    When color;

    @Command(name = "add", description = "Adds notes", mixinStandardHelpOptions = true)
    static class Add implements Runnable {
        @Option(names = {"-t", "--topic", "--about"}, completionCandidates = Notes.class, description = "The topic")
        String topic;
        @Option(names = "--pin", negatable = true, description = "Keep the note on top")
        boolean pin;
        @Option(names = "--label", split = ",", description = "Labels")
        List<String> labels;
        @Option(names = "--host", description = "A host")
        InetAddress host;
        @Option(names = "--old", hidden = true, defaultValue = "1")
        String old;
        @Option(names = {"-xy", "/z"}, description = "Names that are not plain")
        String odd;
        @Option(names = "--copies", paramLabel = "a:b'c", required = true)
        int copies;
        @ArgGroup(exclusive = true)
        Way way;

        static class Way {
            @Option(names = "--fast") boolean fast;
            @Option(names = "--slow") boolean slow;
        }

        @Parameters(arity = "1..*", paramLabel = "FILE")
        List<Path> files;

        @Override
        public void run() {}
    }

    @Command(name = "remove", aliases = {"rm", "r.m"}, description = "Removes a note")
    static class Remove implements Runnable {
        @Parameters(paramLabel = "ID", completionCandidates = Notes.class, description = "A note with a \\ in its text")
        String id;

        @Override
        public void run() {}
    }

    @Command(name = "list", description = "Lists notes")
    static class List_ implements Runnable {
        @Parameters(index = "0", paramLabel = "it's:FIRST")
        String first;
        @Parameters(index = "1", arity = "0..1", paramLabel = "WHAT", completionCandidates = Whats.class)
        String what;

        @Override
        public void run() {}
    }

    @Command(name = "secret", hidden = true)
    static class Secret implements Runnable {
        @Override
        public void run() {}
    }

    @Command(name = "remote", description = "Other places", subcommands = RemoteAdd.class)
    static class Remote {}

    @Command(name = "add", description = "Adds a place")
    static class RemoteAdd implements Runnable {
        @Override
        public void run() {}
    }

    @Command(name = "remote-add", description = "Has the label of remote add")
    static class Clash extends Secret {}

    @Command(name = "odd.name", description = "Has a name that is not plain")
    static class Odd extends Secret {}

    public static void main(String[] words) {
        System.exit(new CommandLine(new App()).execute(words));
    }
}
