// SPDX-License-Identifier: MIT OR Apache-2.0

// Command app keeps notes. It has each thing that Cobra can tell its exporter, and names that no tree file can contain.
package main

import (
	"fmt"
	"os"

	"github.com/spf13/cobra"

	"lagvtsune"
)

func notes(*cobra.Command, []string, string) ([]string, cobra.ShellCompDirective) {
	return []string{"n1\tBuy milk", "c2\tCall Ann"}, cobra.ShellCompDirectiveNoFileComp
}

func main() {
	run := func(cmd *cobra.Command, args []string) { fmt.Println(cmd.Name(), args) }
	root := &cobra.Command{Use: "app", Short: "Keeps notes", Long: "Keeps notes, and more.", Version: "1.0"}
	lagvtsune.Add(root)
	root.CompletionOptions.DisableDefaultCmd = true
	fmt.Println("this is no part of a tree")
	root.PersistentFlags().String("color", "auto", "when to use colours (auto|always|never)")
	root.PersistentFlags().CountP("verbose", "v", "print more")

	add := &cobra.Command{Use: "add FILE...", Short: "Adds notes", Args: cobra.MinimumNArgs(1), Run: run}
	add.Flags().StringP("topic", "t", "", "the `TOPIC` of the note")
	add.Flags().Bool("pin", false, "keep the note on top")
	add.Flags().Bool("no-pin", false, "do not")
	add.MarkFlagsMutuallyExclusive("pin", "no-pin")
	add.Flags().String("store", "", "the directory of the notes")
	add.MarkFlagDirname("store")
	add.Flags().String("from", "", "a file with notes")
	add.MarkFlagFilename("from")
	add.Flags().StringSlice("label", nil, "labels")
	add.Flags().String("old", "", "an old option")
	add.Flags().MarkHidden("old")
	add.Flags().Int("copies", 1, "how many")
	add.Flags().String("sort", "", "the order")
	add.Flags().Lookup("sort").NoOptDefVal = "name"
	add.Flags().String("a.b", "", "a name that is not plain")
	add.RegisterFlagCompletionFunc("topic", notes)
	add.MarkFlagRequired("topic")

	remove := &cobra.Command{Use: "remove ID", Aliases: []string{"rm", "r.m"}, Short: "Removes a note",
		Args: cobra.ExactArgs(1), Run: run, ValidArgsFunction: notes}
	move := &cobra.Command{Use: "move ID OTHER-ID", Short: "Moves a note", Args: cobra.ExactArgs(2), Run: run,
		ValidArgsFunction: notes}
	list := &cobra.Command{Use: "list [what]", Short: "Lists notes", ValidArgs: []string{"all\tEach note", "new", "$(x)"},
		Args: cobra.MaximumNArgs(1), Run: run}
	show := &cobra.Command{Use: "show [flags] [text|json] [ID|NAME] ...", Short: "Shows notes", Run: run}
	mark := &cobra.Command{Use: "mark ID COLOR [COLOR...]", Short: "Marks a note", Args: cobra.MinimumNArgs(2), Run: run,
		ValidArgsFunction: notes}
	paint := &cobra.Command{Use: "paint", Short: "Has an option that hides one above", Run: run}
	paint.Flags().Uint8("color", 0, "the number of a colour")
	hidden := &cobra.Command{Use: "secret", Hidden: true, Run: run}
	remote := &cobra.Command{Use: "remote", Short: "Other places"}
	remote.AddCommand(&cobra.Command{Use: "add URL", Short: "Adds a place", Run: run})
	floating := &cobra.Command{Use: "floating-ip", Short: "Addresses"}
	floating.AddCommand(&cobra.Command{Use: "label FLOATING IP {<it's:name> | <url>} [-- REST...]", Args: cobra.ExactArgs(2), Run: run})
	clash := &cobra.Command{Use: "remote-add", Short: "Has the label of remote add", Run: run}
	odd := &cobra.Command{Use: "odd.name", Short: "Has a name that is not plain", Run: run}
	again := &cobra.Command{Use: "zap", Aliases: []string{"add"}, Run: run,
		Short: "Has an alias that is a name of a command before it"}
	root.AddCommand(add, remove, move, list, show, mark, paint, floating, hidden, remote, clash, odd, again)
	if root.Execute() != nil {
		os.Exit(1)
	}
}
