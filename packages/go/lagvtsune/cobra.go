// SPDX-License-Identifier: MIT OR Apache-2.0

// Package lagvtsune makes a tree file of a Cobra program, for shell completion by complgen.
//
// Two lines of a program are enough: the import, and
//
//	lagvtsune.Add(root) // right after root is made
//
// This gives the program a hidden command, which prints the tree file:
//
//	app __tree
//
// For each argument that a function of the program completes, the tree file names Cobra's own hidden command
// `__complete`. So the function is called at a Tab, with the words that were typed.
package lagvtsune

import (
	"bytes"
	"encoding/json"
	"fmt"
	"io"
	"os"
	"reflect"
	"regexp"
	"runtime"
	"strings"

	"github.com/spf13/cobra"
	"github.com/spf13/pflag"
)

const treeName = "__tree"

// A command of a tree file. A further key is a field here, and a line in commandOf.
type command struct {
	Name        string      `json:"name"`
	About       string      `json:"about,omitempty"`
	LongAbout   string      `json:"long_about,omitempty"`
	AfterHelp   string      `json:"after_help,omitempty"`
	Version     string      `json:"version,omitempty"`
	Aliases     []string    `json:"visible_aliases,omitempty"`
	Hide        bool        `json:"hide,omitempty"`
	NoHelpFlag  bool        `json:"disable_help_flag,omitempty"`
	NoVersion   bool        `json:"disable_version_flag,omitempty"`
	NoHelp      bool        `json:"disable_help_subcommand,omitempty"`
	Required    bool        `json:"subcommand_required,omitempty"`
	Args        []*argument `json:"args,omitempty"`
	Subcommands []*command  `json:"subcommands,omitempty"`
}

// An argument of a tree file. A further key is a field here, and a line in option or positionals.
type argument struct {
	ID             string   `json:"id"`
	Short          string   `json:"short,omitempty"`
	Long           string   `json:"long,omitempty"`
	Help           string   `json:"help,omitempty"`
	Action         string   `json:"action,omitempty"`
	NumArgs        []any    `json:"num_args,omitempty"`
	ValueNames     []string `json:"value_names,omitempty"`
	Delimiter      string   `json:"value_delimiter,omitempty"`
	PossibleValues []value  `json:"possible_values,omitempty"`
	ValueHint      string   `json:"value_hint,omitempty"`
	ValuesFrom     []string `json:"values_from,omitempty"`
	ValuesWords    bool     `json:"values_words,omitempty"`
	ValuesProtocol string   `json:"values_protocol,omitempty"`
	Default        string   `json:"default_value,omitempty"`
	Conflicts      []string `json:"conflicts_with,omitempty"`
	Required       bool     `json:"required,omitempty"`
	Global         bool     `json:"global,omitempty"`
	Hyphen         bool     `json:"allow_hyphen_values,omitempty"`
	Hide           bool     `json:"hide,omitempty"`
}

// A possible value.
type value struct {
	Name string `json:"name"`
	Help string `json:"help,omitempty"`
}

// Cobra's own signature of a function that completes.
type completer = func(*cobra.Command, []string, string) ([]string, cobra.ShellCompDirective)

// Add adds the hidden command to a program.
//
// If it is called, what the program prints to os.Stdout from here on goes to the standard error, so that it does not mix
// with the tree file. Hooks of the program do not run for it.
func Add(root *cobra.Command) {
	out := os.Stdout
	if len(os.Args) > 1 && os.Args[1] == treeName {
		os.Stdout = os.Stderr
	}
	none := func(*cobra.Command, []string) {}
	tree := &cobra.Command{Use: treeName, Short: "Print the tree file", Hidden: true, Args: cobra.NoArgs,
		PersistentPreRun: none, PersistentPostRun: none, SilenceUsage: true}
	short := tree.Flags().Bool("short", false, "leave out the keys that no Tab reads")
	tree.RunE = func(*cobra.Command, []string) error { return Write(out, root, *short) }
	root.AddCommand(tree)
}

// Write writes the tree file of a program, as a whole or not at all. If short is set, the file lacks the keys that no
// Tab reads, and spaces.
//
// What a tree file cannot contain is left out, with a line on the standard error. Write fails if the name of the
// program is not plain, because no tree file would be found by it.
func Write(out io.Writer, root *cobra.Command, short bool) error {
	if name := root.Name(); !plainName.MatchString(name) {
		return fmt.Errorf("%s: the name of the program is not plain (%s)", name, plainMeaning)
	}
	root.InitDefaultHelpCmd()
	root.InitDefaultCompletionCmd()
	made := commandOf(root)
	finisher{short, map[string]string{}}.command(made, nil, map[string]string{})
	var text bytes.Buffer
	encoder := json.NewEncoder(&text)
	encoder.SetEscapeHTML(false)
	if !short {
		encoder.SetIndent("", " ")
	}
	if err := encoder.Encode(made); err != nil {
		return err
	}
	_, err := out.Write(text.Bytes())
	return err
}

func commandOf(cmd *cobra.Command) *command {
	cmd.InitDefaultHelpFlag()
	cmd.InitDefaultVersionFlag()
	made := &command{Name: cmd.Name(), About: cmd.Short, AfterHelp: cmd.Example, Version: cmd.Version,
		Aliases: cmd.Aliases, Hide: cmd.HasParent() && !cmd.IsAvailableCommand(), NoHelpFlag: true,
		NoVersion: cmd.Version != "", NoHelp: true, Required: cmd.HasSubCommands() && !cmd.Runnable()}
	if cmd.Long != cmd.Short {
		made.LongAbout = cmd.Long
	}
	if !cmd.DisableFlagParsing {
		cmd.Flags().VisitAll(func(flag *pflag.Flag) {
			if !isInherited(cmd, flag) {
				made.Args = append(made.Args, option(cmd, flag))
			}
		})
	}
	made.Args = append(made.Args, positionals(cmd)...)
	for _, child := range cmd.Commands() {
		switch name := child.Name(); {
		case name == "help" && !cmd.HasParent():
			made.NoHelp = child.Hidden // complgen makes this command, with the names of all others below it
		case !strings.HasPrefix(name, "__"):
			made.Subcommands = append(made.Subcommands, commandOf(child))
		}
	}
	return made
}

// Returns whether a flag is one of a command above. Cobra's LocalFlags before 1.8 leaves out those that hide one.
func isInherited(cmd *cobra.Command, flag *pflag.Flag) bool {
	for above := cmd.Parent(); above != nil; above = above.Parent() {
		if above.PersistentFlags().Lookup(flag.Name) == flag {
			return true
		}
	}
	return false
}

// Types whose values are no paths. Cobra completes files for all others of which it knows nothing.
var plainTypes = regexp.MustCompile(`^(u?int\d*|float\d*|bool|count|duration|ip.*|bytes.*)(Slice)?$`)

// Values that a help text lists, as in {open|closed} or (auto|always|never).
var listed = regexp.MustCompile(`[{(]([\w.+-]+(?:\|[\w.+-]+)+)[})]`)

func option(cmd *cobra.Command, flag *pflag.Flag) *argument {
	kind := flag.Value.Type()
	name, usage := pflag.UnquoteUsage(flag)
	made := &argument{ID: flag.Name, Long: flag.Name, Help: usage, Hide: flag.Hidden,
		Global: cmd.PersistentFlags().Lookup(flag.Name) == flag}
	if flag.ShorthandDeprecated == "" {
		made.Short = flag.Shorthand
	}
	_, made.Required = flag.Annotations[cobra.BashCompOneRequiredFlag]
	for _, group := range flag.Annotations["cobra_annotation_mutually_exclusive"] {
		for _, other := range strings.Fields(group) {
			if other != flag.Name {
				made.Conflicts = append(made.Conflicts, other)
			}
		}
	}
	_, byCobra := flag.Annotations[cobra.FlagSetByCobraAnnotation]
	switch {
	case kind == "bool" && flag.Name == "help":
		made.Action = "Help"
		return made
	case byCobra && flag.Name == "version":
		made.Action = "Version"
		return made
	case kind == "bool":
		made.Action = "SetTrue"
		return made
	case kind == "count":
		made.Action = "Count"
		return made
	case flag.NoOptDefVal != "":
		made.NumArgs = []any{0, 1}
	}
	if _, several := flag.Value.(pflag.SliceValue); several || strings.HasPrefix(kind, "stringTo") {
		made.Action = "Append"
		if kind != "stringArray" {
			made.Delimiter = ","
		}
	}
	if flag.DefValue != "[]" {
		made.Default = flag.DefValue
	}
	if name != "" {
		made.ValueNames = []string{name}
	}
	_, files := flag.Annotations[cobra.BashCompFilenameExt]
	_, dirs := flag.Annotations[cobra.BashCompSubdirsInDir]
	found := listed.FindStringSubmatch(flag.Usage)
	switch {
	case dirs:
		made.ValueHint = "DirPath"
	case files:
		made.ValueHint = "FilePath"
	case found != nil:
		made.PossibleValues = values(strings.Split(found[1], "|"))
	case hasCompleter(cmd, flag):
		made.askProgram(cmd)
	case plainTypes.MatchString(kind):
		made.ValueHint = "Other"
	default:
		made.ValueHint = "AnyPath"
	}
	return made
}

var completed = map[*pflag.Flag]bool{}

// Returns whether a function completes the values of a flag. Cobra before 1.8 does not say so, but it refuses to
// register a second one. To register none does no harm.
func hasCompleter(cmd *cobra.Command, flag *pflag.Flag) bool {
	if knowing, is := any(cmd).(interface {
		GetFlagCompletionFunc(string) (completer, bool)
	}); is {
		_, has := knowing.GetFlagCompletionFunc(flag.Name)
		return has
	}
	if _, known := completed[flag]; !known {
		completed[flag] = cmd.RegisterFlagCompletionFunc(flag.Name, nil) != nil
	}
	return completed[flag]
}

// Makes Cobra's own hidden command the source of the values.
func (made *argument) askProgram(cmd *cobra.Command) {
	made.ValuesFrom = []string{cmd.Root().Name(), cobra.ShellCompRequestCmd}
	made.ValuesWords, made.ValuesProtocol = true, "cobra"
}

func values(texts []string) (made []value) {
	for _, text := range texts {
		name, help, _ := strings.Cut(text, "\t")
		made = append(made, value{name, help})
	}
	return made
}

// Values in a line of usage, as in [text|json]. Names of values have a capital or an angle bracket.
var alternatives = regexp.MustCompile(`^[a-z0-9][a-z0-9._+-]*(\|[a-z0-9][a-z0-9._+-]*)+$`)

// What the name of a positional is without: brackets, dots, and spaces beside bars.
var brackets = strings.NewReplacer("[", "", "]", "", "{", "", "}", "", "<", "", ">", "", "...", "", " | ", "|")

// The words of a line of usage, with what is in brackets as one word.
var usageWord = regexp.MustCompile(`\[[^\]]*\]\S*|\{[^}]*\}\S*|<[^>]*>\S*|\S+`)

// Returns the positionals: their names as the line of usage has them, and their number as the check `Args` has it.
func positionals(cmd *cobra.Command) (made []*argument) {
	least, most, known := count(cmd)
	if most == 0 {
		return nil
	}
	_, usage, _ := strings.Cut(cmd.Use, " ")
	for above := cmd.Parent(); above != nil; above = above.Parent() { // FLOATING IP below floating-ip is one name
		name := strings.ToUpper(above.Name())
		usage = strings.ReplaceAll(usage, strings.ReplaceAll(name, "-", " "), name)
	}
	isValue := false // of the option before it
	for _, word := range usageWord.FindAllString(usage, -1) {
		name := strings.TrimSpace(brackets.Replace(word))
		if isOption := strings.HasPrefix(name, "-"); isOption || isValue {
			isValue = isOption && !strings.HasPrefix(word, "[")
			continue
		}
		if name == "" && strings.Contains(word, "...") && len(made) > 0 {
			made[len(made)-1].NumArgs[1] = nil
		}
		if name == "" || strings.EqualFold(name, "flags") || strings.EqualFold(name, "options") {
			continue
		}
		one := &argument{ID: name, Required: !strings.HasPrefix(word, "["), NumArgs: []any{1, 1}}
		if alternatives.MatchString(name) && !strings.Contains(word, "<") {
			one.PossibleValues = values(strings.Split(name, "|"))
		}
		if strings.Contains(word, "...") {
			one.NumArgs[1] = nil
		}
		if last := len(made) - 1; last >= 0 && made[last].ID == name && one.NumArgs[1] == nil { // NAME [NAME...]
			made[last].NumArgs[1] = nil
			continue
		}
		made = append(made, one)
	}
	endless := len(made) > 0 && made[len(made)-1].NumArgs[1] == nil
	switch {
	case known && (!endless && most == len(made) || endless && most < 0 && least <= len(made)):
		for at := range made {
			made[at].Required = at < least
		}
	case known && (most > 0 || least > 0 || len(made) == 0):
		id := "arg"
		if len(made) > 0 {
			id = made[0].ID
		}
		made = []*argument{{ID: id, Required: least > 0, NumArgs: []any{least, nil}}}
		if most > 0 {
			made[0].NumArgs[1] = most
		}
	}
	if len(made) == 0 && (cmd.ValidArgs != nil || cmd.ValidArgsFunction != nil || cmd.DisableFlagParsing) {
		made = []*argument{{ID: "args", NumArgs: []any{0, nil}}}
	}
	for at := range made {
		made[at].Hyphen = cmd.DisableFlagParsing
		made[at].ValueNames = []string{made[at].ID}
		if made[at].PossibleValues == nil {
			made[at].ValueHint = "AnyPath" // as Cobra does if nothing completes the argument
		}
		switch function := nameOf(cmd.ValidArgsFunction); {
		case at == 0 && cmd.ValidArgs != nil:
			made[at].PossibleValues, made[at].ValueHint = values(cmd.ValidArgs), ""
		case function == "": // nothing but the line of usage
		case strings.HasPrefix(function, "cobra.NoFileCompletions"):
			if made[at].PossibleValues == nil {
				made[at].ValueHint = "Other"
			}
		case strings.Contains(function, "FixedCompletions.func"): // Go before 1.21 may hide this name
			texts, _ := cmd.ValidArgsFunction(cmd, nil, "")
			made[at].PossibleValues, made[at].ValueHint = values(texts), ""
		default:
			made[at].PossibleValues, made[at].ValueHint = nil, ""
			made[at].askProgram(cmd)
		}
	}
	return made
}

// The names of Cobra's own checks, which may be inlined into a function of the program.
var checks = regexp.MustCompile(`^cobra\.|\.(Exact|ExactValid|Range|MinimumN|MaximumN|Match)A(rgs|ll)\.func\d+$`)

// Returns how many positionals a command takes, with -1 for no greatest number, and whether a check says so. It calls
// only checks of Cobra.
func count(cmd *cobra.Command) (least, most int, known bool) {
	if !cmd.Runnable() || cmd.Args == nil && cmd.HasSubCommands() {
		return 0, 0, true
	}
	if !checks.MatchString(nameOf(cmd.Args)) {
		return 0, -1, false
	}
	word := "x"
	if len(cmd.ValidArgs) > 0 {
		word, _, _ = strings.Cut(cmd.ValidArgs[0], "\t")
	}
	const greatest = 16
	least = -1
	for number := 0; number <= greatest; number++ {
		if cmd.Args(cmd, strings.Fields(strings.Repeat(word+" ", number))) == nil {
			if most = number; least < 0 {
				least = number
			}
		}
	}
	switch {
	case least < 0: // it accepts other words
		return 0, -1, false
	case most == greatest:
		most = -1
	}
	return least, most, true
}

// Returns the name of a function, such as cobra.ExactArgs.func1.
func nameOf(function any) string {
	if reflect.ValueOf(function).IsNil() {
		return ""
	}
	name := runtime.FuncForPC(reflect.ValueOf(function).Pointer()).Name()
	return name[strings.LastIndex(name, "/")+1:]
}

// ---- what a tree file cannot contain

const plainMeaning = "letters and digits, with single - or _ between"

var (
	plainName  = regexp.MustCompile(`^[A-Za-z0-9]+([-_][A-Za-z0-9]+)*$`)
	plainShort = regexp.MustCompile(`^[A-Za-z0-9]$`)
	quietValue = regexp.MustCompile(`^[A-Za-z0-9+\-./:@_,=]+$`) // what bash offers as it is
	controls   = regexp.MustCompile("\x1b\\[[0-9;]*[A-Za-z]|[\x00-\x08\x0b-\x1f\x7f]")
	// Signs that end a text in a script.
	quotes     = strings.NewReplacer("‘", "'", "’", "'", "‚", "'", "‛", "'")
	labelSigns = strings.NewReplacer(":", "-", `\`, "-", "'", `"`, "\n", " ")
)

// Leaves out of a tree what it cannot contain, with a line on the standard error for each.
type finisher struct {
	short  bool
	labels map[string]string // the first command with each label: in bash, a hyphen is a step down, so `a b` is `a-b`
}

func warn(path []string, format string, words ...any) {
	text := strings.Join(path, " ") + ": " + fmt.Sprintf(format, words...)
	fmt.Fprintln(os.Stderr, strings.Join(strings.Fields(text), " "))
}

// Returns why a name cannot be used here, or an empty text.
func reason(name string, pattern *regexp.Regexp, taken bool) string {
	switch {
	case !pattern.MatchString(name):
		return "it is not plain (" + plainMeaning + ")"
	case taken:
		return "an earlier one has this name"
	}
	return ""
}

// Finishes a command. `inherited` has the ids of the global options above by their names, as `-x` or `--name`.
func (f finisher) command(made *command, above []string, inherited map[string]string) {
	path := append(above[:len(above):len(above)], made.Name)
	names, ids, below := map[string]bool{}, map[string]bool{}, map[string]string{}
	hidden := map[string]bool{} // a flag hides one above if it has its name, and in a tree file its id
	for _, one := range made.Args {
		hidden[one.ID] = one.Long != "" && inherited["--"+one.Long] == one.ID
	}
	for name, id := range inherited {
		if !hidden[id] {
			names[name], ids[id], below[name] = true, true, id
		}
	}
	made.About, made.LongAbout, made.AfterHelp = text(made.About), text(made.LongAbout), text(made.AfterHelp)
	if f.short {
		made.LongAbout, made.AfterHelp, made.Required = "", "", false
	}
	kept := made.Args[:0]
	for _, one := range made.Args {
		if f.argument(one, path, names, ids) {
			kept = append(kept, one)
			if one.Global {
				below["--"+one.Long], below["-"+one.Short] = one.ID, one.ID
			}
		}
	}
	made.Args = kept
	for _, one := range kept {
		one.Conflicts = filter(one.Conflicts, func(other string) bool { return ids[other] })
	}
	taken, children := map[string]bool{}, made.Subcommands[:0]
	for _, child := range made.Subcommands {
		own := append(path[:len(path):len(path)], child.Name)
		why := reason(child.Name, plainName, taken[child.Name])
		label, shown := strings.Join(own[1:], "-"), strings.Join(own, " ")
		if first, is := f.labels[label]; why == "" && is {
			why = "bash would know it and " + first + " by one name"
		}
		if why != "" {
			warn(own, "left out: %s", why)
			continue
		}
		f.labels[label], taken[child.Name] = shown, true
		child.Aliases = filter(child.Aliases, func(alias string) bool {
			why := reason(alias, plainName, taken[alias])
			if why != "" {
				warn(own, "the alias %s is left out: %s", alias, why)
			}
			taken[alias] = true
			return why == ""
		})
		children = append(children, child)
		f.command(child, path, below)
	}
	made.Subcommands = children
	made.Required = made.Required && len(children) > 0
}

// Finishes an argument. Returns whether it has a name that is left.
func (f finisher) argument(one *argument, path []string, names, ids map[string]bool) bool {
	isOption := one.Long != "" || one.Short != ""
	if why := reason(one.Long, plainName, names["--"+one.Long]); one.Long != "" && why != "" {
		warn(path, "--%s is left out: %s", one.Long, why)
		one.Long = ""
	}
	if why := reason(one.Short, plainShort, names["-"+one.Short]); one.Short != "" && why != "" {
		warn(path, "-%s is left out: %s", one.Short, why)
		one.Short = ""
	}
	if isOption && one.Long == "" && one.Short == "" {
		return false
	}
	names["--"+one.Long], names["-"+one.Short] = one.Long != "", one.Short != ""
	one.ID = labelSigns.Replace(strings.ReplaceAll(one.ID, "'", ""))
	for wanted, number := one.ID, 2; ids[one.ID]; number++ {
		one.ID = fmt.Sprintf("%s %d", wanted, number)
	}
	ids[one.ID] = true
	one.Help = text(one.Help)
	if !isOption {
		one.Help = strings.ReplaceAll(one.Help, `\`, "/")
	}
	if f.short {
		one.Default = ""
	}
	for at := range one.ValueNames {
		one.ValueNames[at] = labelSigns.Replace(text(one.ValueNames[at]))
	}
	kept, seen := one.PossibleValues[:0], map[string]bool{}
	for _, it := range one.PossibleValues {
		switch {
		case !quietValue.MatchString(it.Name):
			warn(path, "the value %q of %s is left out: a script could split or run it", it.Name, one.ID)
		case !seen[it.Name]:
			kept, seen[it.Name] = append(kept, value{it.Name, strings.ReplaceAll(text(it.Help), `"`, "'")}), true
		}
	}
	one.PossibleValues = kept
	return true
}

func filter(texts []string, is func(string) bool) (kept []string) {
	for _, it := range texts {
		if is(it) {
			kept = append(kept, it)
		}
	}
	return kept
}

// Returns a text without colours and signs that no script can contain.
func text(raw string) string {
	return strings.TrimSpace(quotes.Replace(controls.ReplaceAllString(raw, "")))
}
