"""Builds a graph on the machines of a builders list, by Nix and `nix-dispatch`. docs/FARM.md has what it promises.

The commands are `farm/build`, `farm/gather`, `farm/watch` and `farm/status`; each calls the `main` of a module here.

What is wanted
    options     the command line of farm/build
    settings    what Nix's settings say of this machine, and the builders list
    errors      the ends of a run that isn't brought to its end

The graph
    derivation  the parts of a derivation's text
    cut         a graph cut down to what is still to be built, what others wait for longest first
    gather      what Nix is asked for a graph, the bundle and the info text; `farm/gather`
    substitutes what Nix's substituters have of it
    nobuilder   why no machine may build a derivation

Processes
    process     Nix's commands and other children: each in a process group of its own, without a thread and without a shell
    bounds      waits that are given up where nothing moves
    guard       the process that ends what a killed farm/build has left
    wire        the numbers and strings of Nix's worker protocol
    nar         how long the NAR of a path is, by what lies there
    daemon      a `nix-daemon --stdio` that is spoken with: paths that are valid, references, builds, NARs, roots

Machines and slots
    keys        keys that this user can't read, and what Nix's daemon does for it
    park        the machines and slots, as `nix-dispatch park` lists them, and their store URIs
    blame       whose fault a message is, as a table
    here        this machine's store, as all slots ask it
    damage      paths of it that are gone or others than they were registered
    machine     the connections of a machine: asked once, up or down, whose fault
    again       a machine whose lease was cut short is asked again
    shared      slots of a machine that several coordinators share
    copies      copies to a machine
    builds      a build on a machine or here
    chosen      the derivation that each slot was chosen for, by the journal
    pipe        the pipes of a slot: calls, and answers
    slot        the agent of a slot: reads its calls, and answers them
    events      what agents note, in their logs and in `events`

A run
    folder      the folder of a run: its lock, what lies in it, files that are put into it whole
    history     journals and histories, entry by entry
    program     nix-dispatch: where it is, and what it is asked for
    resume      whether a run is gone on from, and its rounds
    roots       what is kept from the garbage collector
    rounds      the program on the agents' pipes, and whom to shut out behind a round
    workers     the machines of a run, and the agents of their slots
    run         a run from its words to its status: its rounds, their audits, and whether there is another one
    build       `farm/build`: signals, and the order of all that

What is told
    report      how each derivation stands after all rounds, as text
    report_json the same as report.json
    timeline    the copies and builds over time
    outages     when machines were down or drained
    trace       the timeline for Perfetto and for a browser's tracing page
    chain       the longest chain of builds
    logs        the ends of logs
    page        the page of a run, index.html, whose template is page.html
    pages       that page again and again, while the run goes on
    junit       the report for CI services
    summary     the counts and the failures in a few lines
    account     all of that, put into the folder
    display     how far a run is, while it goes on
    status      `farm/status`: how a run stands, from its folder
    watch       `farm/watch`: the same of a folder, from elsewhere
"""
