//! The command line of `herd`, declared by clap's derive.

use clap::{Args, Parser, Subcommand, ValueEnum, ValueHint};
use std::path::PathBuf;

/// Run a cluster of machines
#[derive(Parser)]
#[command(name = "herd", version = "0.9.1", propagate_version = true)]
pub struct Herd {
    /// The cluster to work on
    #[arg(short, long, global = true, value_name = "NAME")]
    cluster: Option<String>,
    /// How to print what is found
    #[arg(short, long, global = true, value_enum, default_value = "table")]
    output: Output,
    #[command(subcommand)]
    verb: Verb,
}

#[derive(Clone, ValueEnum)]
enum Output {
    /// In columns
    Table,
    /// One object a line
    Json,
    Yaml,
}

#[derive(Subcommand)]
enum Verb {
    /// Show what runs
    #[command(visible_alias = "ls")]
    Get(Filter),
    /// Show one thing in detail
    Describe { name: String },
    /// Apply files
    Apply {
        #[arg(short = 'f', long, value_hint = ValueHint::FilePath, required = true)]
        filename: Vec<PathBuf>,
        /// Only say what would change
        #[arg(long)]
        dry_run: bool,
    },
    /// Delete things
    #[command(visible_alias = "rm")]
    Delete {
        #[arg(required = true)]
        names: Vec<String>,
        #[arg(long, conflicts_with = "grace")]
        now: bool,
        #[arg(long, value_name = "SECONDS")]
        grace: Option<u32>,
    },
    /// Print what was logged
    Logs {
        pod: String,
        /// Wait for more
        #[arg(short = 'F', long, visible_short_alias = 't')]
        follow: bool,
    },
    /// Run a command in a pod
    Exec {
        pod: String,
        #[arg(last = true, value_hint = ValueHint::CommandWithArguments)]
        command: Vec<String>,
    },
    /// Work on machines
    #[command(subcommand)]
    Node(Node),
    /// Work on what is deployed
    #[command(subcommand)]
    Rollout(Rollout),
    /// Work on the settings
    #[command(subcommand)]
    Config(Config),
    /// Of the program's own tests
    #[command(hide = true)]
    SelfTest,
}

#[derive(Args)]
struct Filter {
    /// What to show
    kind: Option<String>,
    /// Only what has this label
    #[arg(short = 'l', long, visible_alias = "label")]
    selector: Vec<String>,
    #[arg(short = 'A', long)]
    all_namespaces: bool,
}

#[derive(Subcommand)]
enum Node {
    /// List the machines
    List,
    /// Take no more work on a machine
    Cordon { name: String },
    /// Take work again
    Uncordon { name: String },
    /// Move the work away
    Drain {
        name: String,
        /// Also what can't be moved
        #[arg(long)]
        force: bool,
        #[arg(long, value_hint = ValueHint::Hostname)]
        to: Option<String>,
    },
}

#[derive(Subcommand)]
enum Rollout {
    /// Show how far it is
    Status { name: String },
    /// Go back to an earlier one
    Undo {
        name: String,
        #[arg(long)]
        to_revision: Option<u32>,
    },
    /// Start it anew
    Restart { name: String },
}

#[derive(Subcommand)]
#[command(disable_help_subcommand = true)]
enum Config {
    /// Show the settings
    View,
    /// Set one
    Set { key: String, value: String },
    /// Choose a cluster
    Use {
        #[arg(value_parser = ["test", "live"])]
        cluster_name: String,
    },
}
