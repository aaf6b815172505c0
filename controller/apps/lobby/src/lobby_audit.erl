%%% @doc The audit log: a file of JSON lines about changes, calls, and the members' terminations.
%%%
%%% A change is made even if its line can't be written, because an operator may have to isolate a member while the disk
%%% is full. A line that can't be written leaves a gap in the lines' numbers, and is counted.
-module(lobby_audit).
-behaviour(gen_server).

-include_lib("kernel/include/file.hrl").

-export([start_link/1, write/1, note/1, began/1, ended/3, read/1, names/1, received/3]).
-export([init/1, handle_call/3, handle_cast/2]).
-export_type([config/0, call/0]).

-type config() :: #{file := file:filename(), bytes := pos_integer(), files := pos_integer()} | none.
%% A call: the member's id, entries about the caller, and the rooms, roles and codecs that the call has had.
-type call() :: {lobby_rules:id(), lobby_audit_core:entry(), lobby_audit_core:seen()}.
%% `lost': whether the last write failed. `packets': how many packets gateways have received from each member, by
%% termination.
-record(state, {config :: config(), file = none :: file:fd() | none, size = 0 :: non_neg_integer(),
                number = 0 :: non_neg_integer(), lost = false :: boolean(),
                packets = #{} :: #{lobby_rules:id() => #{term() => non_neg_integer()}}}).
%% The maximum number of lines in an answer, and a limit that no log reaches.
-define(MAX_LINES, 1000).
-define(ALL, 16#FFFFFFFF).
%% The number of bytes to read at the end of a file. They contain at least one whole line.
-define(END, 262144).
%% The maximum number of milliseconds for which a change waits until its line is written.
-define(PATIENCE, 2000).

-spec start_link(config()) -> gen_server:start_ret().
start_link(Config) ->
    gen_server:start_link({local, ?MODULE}, ?MODULE, Config, []).

%% @doc Writes a line, and waits up to two seconds until the kernel has it.
-spec write(lobby_audit_core:entry()) -> ok.
write(Entry) ->
    try gen_server:call(?MODULE, {write, Entry}, ?PATIENCE) catch exit:_ -> lost("it wasn't written in time", true) end.

%% @doc Writes a line asynchronously.
-spec note(lobby_audit_core:entry()) -> ok.
note(Entry) ->
    gen_server:cast(?MODULE, {write, Entry}).

%% @doc Notes how many packets the gateway has received from a member on a termination, for the line about the call's
%% end.
-spec received(lobby_rules:id(), Termination :: term(), Count :: non_neg_integer()) -> ok.
received(Id, Termination, Count) ->
    gen_server:cast(?MODULE, {received, Id, Termination, Count}).

%% @doc Writes the line about a call's start. Returns the time of the start, as Unix time in milliseconds.
-spec began(call()) -> integer().
began(Call) ->
    ok = note([{event, began} | about(Call)]),
    os:system_time(millisecond).

-spec ended(call(), Began :: integer(), Why :: binary()) -> ok.
ended(Call = {Id, _, _}, Began, Why) ->
    Entry = [{event, ended} | about(Call)] ++ [{began, lobby_audit_core:time(Began)}, {why, Why}],
    gen_server:cast(?MODULE, {ended, Id, Entry}).

about({Id, About, Seen}) ->
    [{member, Id} | About] ++ [{Key, lists:reverse(Values)} || {Key, Values} <- maps:to_list(Seen)].

%% @doc Returns the first 1,000 lines that a query selects, in the order of their numbers, and whether there are more.
%% Throws `no_audit_log' if no log is configured.
-spec read(lobby_audit_core:query()) -> {ok, #{lines := [#{binary() => term()}], more := boolean()}}.
read(Query) ->
    read(Query, ?MAX_LINES).

read(Query, Max) ->
    case application:get_env(lobby, audit_log, none) of
        none -> throw(no_audit_log);
        #{file := File} ->
            %% Opens the newest file first, so that a concurrent rename can't hide it.
            Newest = open(File),
            Opened = [Fd || {ok, Fd} <- [Newest | [open(named(File, N)) || N <- older(File)]]],
            %% Reads one line more than requested from each file, to find out whether there are more.
            Lines = lists:ukeysort(1, lists:append([selected(Query, Max + 1, Fd) || Fd <- lists:reverse(Opened)])),
            lists:foreach(fun file:close/1, Opened),
            {ok, #{lines => [Line || {_, Line} <- lists:sublist(Lines, Max)], more => length(Lines) > Max}}
    end.

open(Name) -> file:open(Name, [read, raw, binary, {read_ahead, 65536}]).

selected(_, 0, _) -> [];
selected(Query, Max, Fd) ->
    case file:read_line(Fd) of
        {ok, Text} ->
            Lines = [{N, Line} || Line = #{<<"n">> := N} <- lobby_audit_core:entries(Text),
                                  lobby_audit_core:selects(Query, Line)],
            Lines ++ selected(Query, Max - length(Lines), Fd);
        _ -> []
    end.

%% @doc Returns the contents of a file for `mg_bridge heard --names'. Throws what `read/1' and
%% `lobby_audit_core:names/1' throw.
-spec names(lobby_audit_core:query()) -> iolist().
names(Query) ->
    {ok, #{lines := Lines}} = read(Query, ?ALL),
    lobby_audit_core:names(Lines).

%%% The process.

-spec init(config()) -> {ok, #state{}}.
init(Config) ->
    {ok, #state{config = Config, number = last_number(Config)}}.

last_number(none) -> 0;
last_number(#{file := File}) -> lists:max([lobby_audit_core:last_number(ending(File)) | older(File)]).

ending(Name) ->
    case file:open(Name, [read, raw, binary]) of
        {ok, Fd} ->
            Read = file:pread(Fd, max(0, filelib:file_size(Name) - ?END), ?END),
            _ = file:close(Fd),
            case Read of {ok, Bytes} -> Bytes; _ -> <<>> end;
        {error, _} -> <<>>
    end.

-spec handle_call({write, lobby_audit_core:entry()}, gen_server:from(), #state{}) -> {reply, ok, #state{}}.
handle_call({write, Entry}, _, State) ->
    {reply, ok, written(Entry, State)}.

-spec handle_cast(term(), #state{}) -> {noreply, #state{}}.
handle_cast({write, Entry}, State) ->
    {noreply, written(Entry, State)};
handle_cast({received, Id, Termination, Count}, State = #state{packets = Packets}) ->
    Counts = maps:get(Id, Packets, #{}),
    {noreply, State#state{packets = Packets#{Id => Counts#{Termination => Count}}}};
handle_cast({ended, Id, Entry}, State = #state{packets = Packets}) ->
    Count = lists:sum(maps:values(maps:get(Id, Packets, #{}))),
    {noreply, written(Entry ++ [{packets, Count}], State#state{packets = maps:remove(Id, Packets)})}.

written(_, State = #state{config = none}) -> State;
written(Entry, State = #state{number = Number}) ->
    Line = lobby_audit_core:line(Number + 1, os:system_time(millisecond), Entry),
    Ready = #state{file = File, size = Size} = opened(rotated(iolist_size(Line), State#state{number = Number + 1})),
    case File =/= none andalso file:write(File, Line) of
        ok -> Ready#state{size = Size + iolist_size(Line), lost = false};
        _ ->
            %% Logs only the first of several failures in a row.
            ok = lost([maps:get(file, State#state.config), " can't be written"], not State#state.lost),
            closed(Ready#state{lost = true})
    end.

%% Renames the file if a line of this length would make it too long, and then deletes the oldest files, if there are too
%% many.
rotated(Length, State = #state{config = #{file := File, bytes := Bytes, files := Files}, size = Size, number = Number})
  when Size > 0, Size + Length > Bytes ->
    Closed = closed(State),
    _ = file:rename(File, named(File, Number - 1)),
    _ = [file:delete(named(File, N)) || Older <- [older(File)], N <- lists:nthtail(min(Files, length(Older)), Older)],
    Closed;
rotated(_, State) -> State.

%% Opens the file. An earlier process may have left an incomplete last line, so a line feed is written first if the file
%% isn't empty.
opened(State = #state{file = none, config = #{file := Name}}) ->
    case file:open(Name, [append, raw, binary]) of
        {ok, File} ->
            ok = private(Name),
            {ok, Size} = file:position(File, eof),
            Opened = State#state{file = File, size = Size},
            case Size =:= 0 orelse file:write(File, <<"\n">>) of {error, _} -> closed(Opened); _ -> Opened end;
        {error, _} -> State
    end;
opened(State) -> State.

%% Lets only the owner read the file. Under systemd, the umask has done so, and `file:change_mode/2' isn't allowed,
%% because it also sets the file's owner.
private(Name) ->
    case file:read_file_info(Name, [raw]) of
        {ok, #file_info{mode = Mode}} when Mode band 8#077 =:= 0 -> ok;
        _ -> _ = file:change_mode(Name, 8#600), ok
    end.

closed(State = #state{file = none}) -> State;
closed(State = #state{file = File}) ->
    _ = file:close(File),
    State#state{file = none, size = 0}.

%% Returns the name of an older file, whose last line has this number.
named(File, N) -> File ++ "." ++ integer_to_list(N).

%% Returns the numbers of the older files, the newest first.
older(File) ->
    Start = filename:basename(File) ++ ".",
    Found = [N || {ok, Names} <- [file:list_dir(filename:dirname(File))], Name <- Names,
                  Rest <- [string:prefix(Name, Start)], is_list(Rest), {N, []} <- [string:to_integer(Rest)], N > 0],
    lists:reverse(lists:sort(Found)).

lost(Reason, IsLogged) ->
    _ = [logger:error("a line of the audit log is lost: ~ts", [Reason]) || IsLogged],
    lobby_events:count(lobby_audit_lost_total, none).
