%% The proved gateway as a function, for searches: the result of a control datagram in any state that a search has
%% reached. Each result is computed once, by `mg_bridge replay --flows' behind a port, and then kept.
%%
%% A world is a gateway's content: terminations, topology, media, kept replies, and the numbers used so far. Scripts
%% that lead to the same content lead to the same world, so a search meets few worlds. `recheck/2' checks that such
%% scripts have the same results afterwards. In a world, no time passes, and no RTP arrives.
-module(oracle).
-behaviour(gen_server).

-export([start/1, stop/1, new/1, run/3, restart/1, resume/2, flows/2, terminations/2, remotes/2, content/2]).
-export([recheck/2, statistics/1]).
-export([init/1, handle_call/3, handle_cast/2, handle_info/2, terminate/2]).
-export_type([oracle/0, world/0, options/0, content/0]).

%% `slots': the gateway's maximum number of terminations. `arguments': more options of `replay'. `controller': the
%% address that sends datagrams. `lost': the maximum number of last datagrams that a journal may lack, see `resume/2'.
%% `servers': the number of processes that run gateways, for as many workers of a search. `processes': the maximum
%% number of gateways for each server.
-type options() :: #{slots => 1..256, arguments => [string()], controller => {inet:ip4_address(), inet:port_number()},
                     lost => non_neg_integer(), servers => pos_integer(), processes => pos_integer()}.
-record(oracle, {servers :: tuple(), table :: ets:tid(), lost :: non_neg_integer()}).
-opaque oracle() :: #oracle{}.
%% A world is the number of its content, with the numbers of the earlier worlds to which a journal may go back.
-opaque world() :: {id(), Past :: [id()]}.
-type id() :: non_neg_integer().
%% `audit': the answers to audits of each context's media and topology, in order of entry. `last': the highest numbers
%% of a termination and of a context.
-type content() :: #{terminations := #{pos_integer() => termination()}, audit := #{pos_integer() => binary()},
                     kept := #{{Sender :: binary(), pos_integer()} => [binary()]}, last := {non_neg_integer(), non_neg_integer()}}.
-type flows() :: ordsets:ordset({Talker :: pos_integer(), Listener :: pos_integer()}).
-type termination() :: #{context := pos_integer(), port := pos_integer(), mode := atom(), hears := [pos_integer()]}.
%% The address and port to which each termination sends.
-type remotes() :: #{pos_integer() => {Address :: binary(), Port :: binary()}}.

-define(DEFAULTS, #{slots => 256, arguments => [], controller => {{127, 0, 0, 1}, 2945}, lost => 0, servers => 1,
                    processes => 60}).
%% The number of gateways that are started in advance, because a start takes as long as 500 lines.
-define(SPARE, 8).
%% Nothing marks the end of a line's output, so a line with a known answer follows it. Audits come from another
%% controller, which acknowledges each answer, so that no reply to an audit stays kept.
-define(END, "say 127.0.0.9:9 end\n").
-define(ENDED, <<"say 127.0.0.9:9 ", _/binary>>).
-define(AUDITOR, "127.0.0.8:8").
%% The gateway keeps 32 replies, one of which is the reply to an audit until its acknowledgement.
-define(KEPT, 31).

-record(state, {bridge :: file:filename(), arguments :: [string()], address :: binary(), processes :: pos_integer(),
                table :: ets:tid(),
                %% Gateways with their worlds, the most recently used first, and unused gateways.
                running = [] :: [{id(), port()}], spare = [] :: [port()]}).
-type state() :: #state{}.

%% @doc Starts an oracle. The gateway's program is the one at BRIDGE or, by default, the one in dist/.
-spec start(options()) -> oracle().
start(Options0) ->
    Options = #{lost := Lost, servers := Servers} = maps:merge(?DEFAULTS, Options0),
    {ok, First} = gen_server:start_link(?MODULE, Options, []),
    Table = gen_server:call(First, table),
    Others = [element(2, gen_server:start_link(?MODULE, Options#{table => Table}, [])) || _ <- lists:seq(2, Servers)],
    #oracle{servers = list_to_tuple([First | Others]), table = Table, lost = Lost}.

-spec stop(oracle()) -> ok.
stop(#oracle{servers = Servers}) -> lists:foreach(fun gen_server:stop/1, lists:reverse(tuple_to_list(Servers))).

%% @doc Returns the world of a gateway that has just started.
-spec new(oracle()) -> world().
new(#oracle{}) -> {0, []}.

%% @doc Returns the gateway's replies to a datagram from the controller, and the next world.
-spec run(oracle(), world(), Datagram :: iodata()) -> {[binary()], world()}.
run(#oracle{servers = Servers, table = Table, lost = Lost}, {Id, Past}, Datagram) ->
    Text = iolist_to_binary(Datagram),
    {Replies, Next} = case ets:lookup(Table, {step, Id, Text}) of
        [{_, Known}] -> Known;
        %% A process always asks the same server, which may still have a gateway in this world.
        [] -> call(element(erlang:phash2(self(), tuple_size(Servers)) + 1, Servers), {run, Id, Text})
    end,
    {Replies, {Next, lists:sublist([Id | Past], Lost)}}.

call(Server, Request) ->
    case gen_server:call(Server, Request, infinity) of
        {ok, Result} -> Result;
        {error, Reason} -> error(Reason)
    end.

%% @doc Returns the world after a restart without a journal: empty, and with the same numbers again.
-spec restart(world()) -> world().
restart(_) -> {0, []}.

%% @doc Returns the world after a restart with a journal that lacks this many of the last datagrams (at most `lost'). A
%% journal that lacks nothing leads to the same world: this is proved.
-spec resume(world(), Lost :: non_neg_integer()) -> world().
resume(World, 0) -> World;
resume(World = {_, []}, _) -> World;
resume({_, [Id | Past]}, Lost) -> resume({Id, Past}, Lost - 1).

%% @doc Returns the flows that can be heard, as pairs of the talker's and the listener's termination.
-spec flows(oracle(), world()) -> flows().
flows(#oracle{table = Table}, {Id, _}) -> ets:lookup_element(Table, {world, Id}, 4).

-spec terminations(oracle(), world()) -> #{pos_integer() => termination()}.
terminations(#oracle{table = Table}, {Id, _}) -> ets:lookup_element(Table, {world, Id}, 5).

%% @doc Returns the addresses to which terminations send, if they have a Remote.
-spec remotes(oracle(), world()) -> remotes().
remotes(#oracle{table = Table}, {Id, _}) -> ets:lookup_element(Table, {world, Id}, 6).

%% @doc Returns the content of a world, which determines the gateway's further results.
-spec content(oracle(), world()) -> content().
content(#oracle{table = Table}, {Id, _}) -> ets:lookup_element(Table, {world, Id}, 3).

%% @doc Compares scripts that lead to the same world: for each result that is known after one script, up to `Most', runs
%% the other script. Returns the number of comparisons, and those that differ.
-spec recheck(oracle(), Most :: non_neg_integer()) -> {non_neg_integer(), [{Script :: [binary()], binary()}]}.
recheck(#oracle{servers = Servers}, Most) -> call(element(1, Servers), {recheck, Most}).

%% @doc Returns the number of known worlds and results, and the number of gateways and lines that they took.
-spec statistics(oracle()) -> #{worlds | answers | started | lines => non_neg_integer()}.
statistics(#oracle{table = Table}) ->
    Counts = maps:from_list([hd(ets:lookup(Table, Counter)) || Counter <- [answers, started, lines]]),
    Counts#{worlds => ets:select_count(Table, [{{{content, '_'}, '_'}, [], [true]}])}.

%%% The processes that run the gateways. Their table has {{world, Id}, Origin, Content, Flows, Terminations, Remotes},
%%% {{content, Content}, Id}, {{step, Id, Datagram}, {Replies, Next}}, and counters.

-spec init(map()) -> {ok, state()}.
init(Options = #{slots := Slots, arguments := Arguments, controller := {Address, Port}, processes := Processes}) ->
    _ = process_flag(trap_exit, true),
    Table = case Options of #{table := Shared} -> Shared; _ -> table() end,
    {ok, #state{bridge = os:getenv("BRIDGE", "dist/mg_bridge"), table = Table, processes = Processes,
                arguments = ["replay", "--flows", "--slots", integer_to_list(Slots) | Arguments],
                address = iolist_to_binary([inet:ntoa(Address), $:, integer_to_list(Port)])}}.

table() ->
    Table = ets:new(?MODULE, [public, {read_concurrency, true}]),
    true = ets:insert(Table, [{Counter, 0} || Counter <- [ids, answers, started, lines]]),
    0 = interned(none, #{terminations => #{}, audit => #{}, kept => #{}, last => {0, 0}}, Table),
    Table.

%% If the gateway's output is unexpected, the process returns an error and ends.
-spec handle_call(term(), gen_server:from(), state()) -> {reply, term(), state()} | {stop, normal, term(), state()}.
handle_call(table, _, State = #state{table = Table}) ->
    {reply, Table, State};
handle_call(Request, _, State) ->
    try request(Request, State) of
        {Result, Next} -> {reply, {ok, Result}, Next}
    catch
        error:Reason -> {stop, normal, {error, Reason}, State}
    end.

request({run, Id, Datagram}, State = #state{table = Table}) ->
    case ets:lookup(Table, {step, Id, Datagram}) of
        [{_, Known}] -> {Known, State};
        [] -> asked(Id, Datagram, State)
    end;
request({recheck, Most}, State) ->
    rechecked(Most, State).

-spec handle_cast(term(), state()) -> {noreply, state()}.
handle_cast(_, State) -> {noreply, State}.

-spec handle_info(term(), state()) -> {noreply, state()}.
handle_info(_, State) -> {noreply, State}.

-spec terminate(term(), state()) -> ok.
terminate(_, #state{running = Running, spare = Spare}) ->
    lists:foreach(fun port_close/1, Spare ++ [Port || {_, Port} <- Running]).

%% Computes a result with a gateway that is in this world, and moves on to the next world.
asked(Id, Datagram, State0 = #state{table = Table}) ->
    {Port, Script, State} = gateway_in(Id, State0),
    {Replies, Content} = outcome(Port, Script, Datagram, content_of(Id, Table), State),
    Next = interned({Id, Datagram}, Content, Table),
    _ = [ets:update_counter(Table, answers, 1) || ets:insert_new(Table, {{step, Id, Datagram}, {Replies, Next}})],
    {{Replies, Next}, State#state{running = [{Next, Port} | State#state.running]}}.

content_of(Id, Table) -> ets:lookup_element(Table, {world, Id}, 3).

interned(Origin, Content, Table) ->
    case ets:lookup(Table, {content, Content}) of
        [{_, Id}] -> Id;
        [] ->
            Id = ets:update_counter(Table, ids, 1) - 1,
            #{terminations := Terminations, audit := Audit} = Content,
            true = ets:insert(Table, {{world, Id}, Origin, Content, flows_of(Terminations), Terminations, remotes_of(Audit)}),
            case ets:insert_new(Table, {{content, Content}, Id}) of
                true -> Id;
                %% Another server was faster.
                false -> true = ets:delete(Table, {world, Id}), interned(Origin, Content, Table)
            end
    end.

flows_of(Terminations) ->
    lists:sort([{Talker, Listener} || {Listener, #{hears := Hears}} <- maps:to_list(Terminations), Talker <- Hears]).

remotes_of(Audit) ->
    Remote = <<"AuditValue=RTP/(\\d+)\\{(?:(?!AuditValue).)*?Remote\\{[^}]*?c=IN IP4 ([0-9.]+)[^}]*?m=audio (\\d+)">>,
    maps:from_list([{binary_to_integer(T), {Address, Port}}
                    || Text <- maps:values(Audit),
                       {match, Found} <- [re:run(Text, Remote, [global, dotall, {capture, all_but_first, binary}])],
                       [T, Address, Port] <- Found]).

%% Returns a gateway that is in this world, or a new gateway and the script that leads to this world.
gateway_in(Id, State0 = #state{running = Running, processes = Processes, table = Table}) ->
    case lists:keytake(Id, 1, Running) of
        {value, {_, Port}, Rest} -> {Port, [], State0#state{running = Rest}};
        false ->
            {Keep, Close} = lists:split(min(Processes - 1, length(Running)), Running),
            lists:foreach(fun({_, Port}) -> port_close(Port) end, Close),
            {Port, State} = fresh(State0#state{running = Keep}),
            {Port, script(Id, Table, []), State}
    end.

%% Returns the datagrams that first led to a world.
script(Id, Table, Script) ->
    case ets:lookup_element(Table, {world, Id}, 2) of
        none -> Script;
        {Before, Datagram} -> script(Before, Table, [Datagram | Script])
    end.

%% Returns the gateway that has had the most time to start.
fresh(State = #state{bridge = Bridge, arguments = Arguments, spare = Spare, table = Table}) ->
    Options = [{args, Arguments}, {line, 200000}, binary, stderr_to_stdout, exit_status],
    New = [open_port({spawn_executable, Bridge}, Options) || _ <- lists:seq(length(Spare), ?SPARE)],
    _ = ets:update_counter(Table, started, length(New)),
    [Port | Rest] = Spare ++ New,
    {Port, State#state{spare = Rest}}.

from_controller(Datagram, #state{address = Address}) ->
    ["control ", Address, $\s, string:lowercase(binary:encode_hex(Datagram)), $\n].

%% Returns the gateway's output for each group of lines.
printed(Port, Groups, #state{table = Table}) ->
    _ = ets:update_counter(Table, lines, length(lists:append(Groups)) + length(Groups)),
    try port_command(Port, [[Group, ?END] || Group <- Groups]) of
        true -> [until_end(Port, []) || _ <- Groups]
    catch
        error:badarg -> error({gateway_ended, closed, []})
    end.

until_end(Port, Printed) ->
    receive
        {Port, {data, {eol, ?ENDED}}} -> lists:reverse(Printed);
        {Port, {data, {eol, Line}}} -> until_end(Port, [Line | Printed]);
        {Port, {exit_status, Status}} -> error({gateway_ended, Status, lists:reverse(Printed)});
        {'EXIT', Port, Reason} -> error({gateway_ended, Reason, lists:reverse(Printed)})
    end.

%%% The content of a world.

%% All lines are sent at once, so the contexts that will exist are guessed.
outcome(Port, Script, Datagram, Before, State = #state{address = Address}) ->
    #{terminations := Were, kept := WereKept, last := Last = {_, LastContext}} = Before,
    Made = length(binary:matches(Datagram, [<<"Context=$">>, <<"C=$">>])),
    Guess = lists:usort(contexts(Were) ++ lists:seq(LastContext + 1, LastContext + Made)),
    Groups = [[from_controller(D, State) || D <- Script], [from_controller(Datagram, State)], audits(Guess)],
    [_, Printed, Audited] = printed(Port, Groups, State),
    Replies = answers(Address, Printed),
    Terminations = lists:foldl(fun changed/2, Were, [Line || <<"# 0 ticks: RTP/", Line/binary>> <- Printed]),
    Kept = kept(Datagram, Replies, WereKept),
    map_size(Kept) =< ?KEPT orelse error({too_many_kept_replies, map_size(Kept)}),
    Audit = audit(Port, Guess, Audited, contexts(Terminations), State),
    {Replies, #{terminations => Terminations, audit => Audit, kept => Kept, last => last(Terminations, Last)}}.

contexts(Terminations) -> lists:usort([In || #{context := In} <- maps:values(Terminations)]).

last(Terminations, {Termination, Context}) ->
    {lists:max([Termination | maps:keys(Terminations)]), lists:max([Context | contexts(Terminations)])}.

%% Applies a line of `--flows' about a termination.
changed(Line, Terminations) ->
    [Number | Words] = binary:split(Line, <<" ">>, [global]),
    T = binary_to_integer(Number),
    case Words of
        [<<"made">>, <<"in">>, <<"context">>, In, <<"at">>, <<"port">>, At] ->
            Place = #{context => binary_to_integer(In), port => binary_to_integer(At)},
            Terminations#{T => Place#{mode => none, hears => []}};
        [<<"ended">>] -> maps:remove(T, Terminations);
        [<<"moved">>, <<"to">>, <<"context">>, In] -> set(T, context, binary_to_integer(In), Terminations);
        [<<"mode">>, Mode] -> set(T, mode, binary_to_atom(Mode), Terminations);
        [<<"hears">>, <<"nobody">>] -> set(T, hears, [], Terminations);
        [<<"hears">> | Names] -> set(T, hears, [binary_to_integer(N) || <<"RTP/", N/binary>> <- Names], Terminations)
    end.

set(T, Key, Value, Terminations) ->
    #{T := Termination} = Terminations,
    Terminations#{T := Termination#{Key := Value}}.

%% Returns the kept replies. Replies with a transaction number are kept until the requests' sender acknowledges them.
kept(Datagram, Replies, Kept) ->
    Sender = iolist_to_binary(found(<<"^(?:MEGACO|!)/1\\s+(\\S+)">>, Datagram)),
    Answered = found(<<"Reply=(\\d+)\\{">>, iolist_to_binary(Replies)),
    New = maps:from_list([{{Sender, binary_to_integer(Number)}, Replies} || Number <- Answered]),
    Ranges = [binary:split(Range, <<"-">>) || List <- found(<<"(?:TransactionResponseAck|K)\\s*\\{([^}]*)\\}">>, Datagram),
                                              Range <- string:lexemes(List, ", \r\n\t")],
    Numbers = [lists:seq(binary_to_integer(hd(Range)), binary_to_integer(lists:last(Range))) || Range <- Ranges],
    maps:without([{Sender, Number} || Number <- lists:append(Numbers)], maps:merge(Kept, New)).

found(Pattern, Text) ->
    case re:run(Text, Pattern, [global, {capture, all_but_first, binary}]) of
        {match, Found} -> lists:append(Found);
        nomatch -> []
    end.

%% Returns the lines that audit contexts. The audits include settings that have no effect on flows: media, and the
%% topology while modes keep terminations silent.
audits(Contexts) ->
    Say = ["say ", ?AUDITOR, " MEGACO/1 [127.0.0.8]:8 "],
    What = "{ContextAudit{Topology},AuditValue=*{Audit{Media}}}}\n",
    [[Say, "Transaction=1{Context=", integer_to_list(In), What, Say, "TransactionResponseAck{1}\n"] || In <- Contexts].

audit(Port, Guess, Audited, Contexts, State) ->
    Known = maps:from_list(lists:zip(Guess, answers(<<?AUDITOR>>, Audited))),
    case Contexts -- Guess of
        [] ->
            Audit = maps:with(Contexts, Known),
            %% A context with many members doesn't fit into a reply.
            [] = [Answer || Answer <- maps:values(Audit), binary:match(Answer, <<"Error=">>) =/= nomatch],
            Audit;
        _ ->
            [Again] = printed(Port, [audits(Contexts)], State),
            audit(Port, Contexts, Again, Contexts, State)
    end.

%% Returns the datagrams that were sent to this address.
answers(Address, Printed) ->
    Size = byte_size(Address),
    [unescaped(Text) || <<"say ", To:Size/binary, " ", Text/binary>> <- Printed, To =:= Address].

unescaped(<<"\\n", Rest/binary>>) -> <<$\n, (unescaped(Rest))/binary>>;
unescaped(<<"\\r", Rest/binary>>) -> <<$\r, (unescaped(Rest))/binary>>;
unescaped(<<"\\\\", Rest/binary>>) -> <<$\\, (unescaped(Rest))/binary>>;
unescaped(<<Byte, Rest/binary>>) -> <<Byte, (unescaped(Rest))/binary>>;
unescaped(<<>>) -> <<>>.

%%% Comparing scripts that lead to the same content.

rechecked(Most, State = #state{table = Table}) ->
    Steps = [Step || Step = {{step, _, _}, _} <- ets:tab2list(Table)],
    Others = [{Next, script(Id, Table, []) ++ [Datagram]}
              || {{step, Id, Datagram}, {_, Next}} <- Steps,
                 ets:lookup_element(Table, {world, Next}, 2) =/= {Id, Datagram}],
    Known = maps:groups_from_list(fun({{step, Id, _}, _}) -> Id end, Steps),
    Pairs = lists:sublist([{Script, Step} || {Id, Script} <- Others, Step <- maps:get(Id, Known, [])], Most),
    {Differ, Next} = lists:foldl(fun recheck_one/2, {[], State}, Pairs),
    {{length(Pairs), lists:reverse(Differ)}, Next}.

recheck_one({Script, {{step, Id, Datagram}, {Replies, Next}}}, {Differ, State0 = #state{table = Table}}) ->
    {Port, State} = fresh(State0),
    {Found, Content} = outcome(Port, Script, Datagram, content_of(Id, Table), State),
    true = port_close(Port),
    case {Found, Content} =:= {Replies, content_of(Next, Table)} of
        true -> {Differ, State};
        false -> {[{Script, Datagram} | Differ], State}
    end.
