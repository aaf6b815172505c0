%%% @doc The transactions with one gateway, as a value: numbers, a window, retransmission and acknowledgement (RFC 3525,
%%% section 8 and annex D).
%%%
%%% A gateway keeps its last 32 replies, and runs a duplicate request again if it no longer has the reply. So only a few
%%% requests are sent after the oldest unanswered one. The gateway also drops a reply once it is acknowledged. So
%%% replies are acknowledged only after a quiet time, when no copy of the request can be in flight any more.
%%%
%%% Only the reply names the context and terminations that a request has created. After a failure, the successor learns
%%% them by repeating the request. So a request that creates a termination isn't sent before the successor is certain to
%%% know the request.
-module(lobby_transactions).

-export([new/3, submit/4, resubmit/4, go/3, received/4, expired/2, deadline/1, pause/1, resume/2, abandon/1]).
-export([awaits/2, open/1, makes/1]).
-export_type([transactions/0, options/0, effect/1, reply/0, sent/0]).

%% Half of the 32 replies that a gateway keeps for all its controllers.
-define(WINDOW, 16).
-define(KEPT_REPLIES, 32).
-define(MAX_WAITING, 1024).
%% The maximum interval, in milliseconds, between retransmissions of a `patiently' request.
-define(MAX_RETRY, 2000).

-type milliseconds() :: integer().
%% `tries': the number of transmissions, `retry' milliseconds apart, after which the gateway counts as lost.
-type options() :: #{retry := pos_integer(), tries := pos_integer(), quiet := pos_integer()}.
-type reply() :: {ok, [lobby_h248:reply()]} | {error, Code :: pos_integer()}.
%% `begin': a request is about to be sent. Store it first if it must be known after a failure that the request may have
%% been run. `wait': the request creates a context or a termination. Call `go/3' to send it, once the stored request
%% can't be lost any more.
-type effect(From) :: {'begin', sent(), From} | {wait, lobby_h248:transaction()} | {send, binary()}
                    | {answer, lobby_h248:transaction(), From, lobby_h248:action(), reply()}
                    | {refuse, From, busy} | no_answer.

%% A request that was sent, with its sender and number: if both are the same, the gateway takes a request for a
%% duplicate.
-type sent() :: {lobby_h248:sender(), lobby_h248:transaction(), lobby_h248:action()}.

-record(request, {from :: term(), sent :: sent(), message :: binary(),
                  %% The time of the next retransmission, or `infinity' before the request is sent.
                  again = infinity :: milliseconds() | infinity, interval :: milliseconds(), left :: left()}).
%% How often a request may still be sent.
-type left() :: non_neg_integer() | forever | patiently.
-type waiting() :: queue:queue({term(), lobby_h248:action(), left()}).
-record(transactions, {sender :: lobby_h248:sender(), options :: options(), next :: lobby_h248:transaction(),
                       open = #{} :: #{lobby_h248:transaction() => #request{}},
                       waiting = queue:new() :: waiting(),
                       %% Requests whose replies aren't acknowledged yet, with the ends of their quiet times, newest
                       %% first.
                       answered = [] :: [{lobby_h248:transaction(), milliseconds()}],
                       %% Requests that are held back: those that were sent, and those that were queued.
                       held = none :: {#{lobby_h248:transaction() => #request{}}, waiting()} | none,
                       %% The effects of the current call, last one first.
                       out = [] :: [effect(term())]}).
-opaque transactions() :: #transactions{}.

%% @doc Returns the transactions of a run. Their numbers ascend from the first one, which must be above 1, the
%% transaction number of checks. The first number should be higher than the numbers of earlier runs, so that a late
%% reply to an earlier run doesn't match a request of this one.
-spec new(lobby_h248:sender(), First :: lobby_h248:transaction(), options()) -> transactions().
new(Sender, First, Options) ->
    #transactions{sender = Sender, options = Options, next = First}.

%% @doc Sends a request, now or as soon as the window allows it. Only `queued' requests can be refused or, during a
%% pause, held back; all others are sent next. `forever' requests are retransmitted until they are answered, and so are
%% `patiently' requests, at growing intervals.
-spec submit({queued | urgent | forever | patiently, From}, lobby_h248:action(), milliseconds(), transactions()) ->
          {[effect(From)], transactions()}.
submit({queued, From}, Action, Now, T = #transactions{held = Held, waiting = Waiting, options = #{tries := Tries}}) ->
    Queue = case Held of none -> Waiting; {_, Later} -> Later end,
    More = queue:in({From, Action, Tries}, Queue),
    case {queue:len(Queue), Held} of
        {?MAX_WAITING, _} -> {[{refuse, From, busy}], T};
        {_, none} -> done(flush(Now, T#transactions{waiting = More}));
        {_, {Open, _}} -> {[], T#transactions{held = {Open, More}}}
    end;
submit({Kind, From}, Action, Now, T = #transactions{waiting = Waiting, options = #{tries := Tries}}) ->
    Left = case Kind of urgent -> Tries; _ -> Kind end,
    done(flush(Now, T#transactions{waiting = queue:in_r({From, Action, Left}, Waiting)})).

act(Effect, T = #transactions{out = Out}) -> T#transactions{out = [Effect | Out]}.
done(T = #transactions{out = Out}) -> {lists:reverse(Out), T#transactions{out = []}}.

%% @doc Repeats an abandoned request, or one of an earlier run, with its sender and number, so that the gateway doesn't
%% run it twice. Later requests have higher numbers, so that a copy of this request's reply doesn't match them.
-spec resubmit({forever | patiently, From}, sent(), milliseconds(), transactions()) ->
          {[effect(From)], transactions()}.
resubmit({Kind, From}, Sent = {_, Number, _}, Now, T = #transactions{next = Next}) ->
    done(send(Sent, From, Kind, Now, T#transactions{next = max(Next, following(Number))})).

flush(Now, T = #transactions{sender = Sender, open = Open, waiting = Waiting, next = Number}) ->
    case {queue:out(Waiting), Number - lists:min([Number | maps:keys(Open)]) < ?WINDOW} of
        {{{value, {From, Action, Left}}, Rest}, true} ->
            Next = T#transactions{waiting = Rest, next = following(Number)},
            flush(Now, send({Sender, Number, Action}, From, Left, Now, Next));
        _ -> T
    end.

following(16#FFFFFFFF) -> 2;
following(Number) -> Number + 1.

send(Sent = {Sender, Number, Action}, From, Left, Now, T = #transactions{open = Open, options = #{retry := Retry}}) ->
    Message = lobby_h248:request(Sender, Number, Action),
    Request = #request{from = From, sent = Sent, message = Message, interval = Retry, left = Left},
    begun(Number, Now, T#transactions{open = Open#{Number => Request}}).

begun(Number, Now, T = #transactions{open = Open}) ->
    #{Number := #request{from = From, sent = Sent = {_, _, Action}}} = Open,
    Begun = act({'begin', Sent, From}, T),
    case makes(Action) of
        true -> act({wait, Number}, Begun);
        false -> sent(Number, Now, Begun)
    end.

%% @doc Returns whether an action creates a context or termination, so that only the reply names it.
-spec makes(lobby_h248:action()) -> boolean().
makes(#{context := Context, commands := Commands}) ->
    Context =:= new orelse lists:keymember(add_optional, 1, Commands).

sent(Number, Now, T = #transactions{open = Open}) ->
    #{Number := Request = #request{message = Message, interval = Interval, left = Left}} = Open,
    Sent = Request#request{again = Now + Interval, left = less(Left)},
    act({send, Message}, T#transactions{open = Open#{Number := Sent}}).

less(Left) when is_integer(Left) -> Left - 1;
less(Kind) -> Kind.

%% @doc Sends a request that has been waiting since its effect `wait'.
-spec go(lobby_h248:transaction(), milliseconds(), transactions()) -> {[effect(term())], transactions()}.
go(Number, Now, T = #transactions{open = Open}) ->
    case Open of
        #{Number := #request{again = infinity}} -> done(sent(Number, Now, T));
        #{} -> {[], T}
    end.

%% @doc Handles a reply. A reply without an open request is ignored.
-spec received(lobby_h248:transaction(), reply(), milliseconds(), transactions()) -> {[effect(term())], transactions()}.
received(Number, Reply, Now, T = #transactions{sender = Own, open = Open, answered = Answered, options = Options}) ->
    case maps:take(Number, Open) of
        {#request{from = From, sent = {Sender, _, Action}}, Rest} ->
            Quiet = Now + maps:get(quiet, Options),
            %% Replies to earlier runs aren't acknowledged, because the gateway must not see this run's number before it
            %% has answered all of them.
            Later = lists:sublist([{Number, Quiet} || Sender =:= Own] ++ Answered, ?KEPT_REPLIES),
            Answer = {answer, Number, From, Action, Reply},
            done(flush(Now, act(Answer, T#transactions{open = Rest, answered = Later})));
        error -> {[], T}
    end.

%% @doc Retransmits requests that are due, and acknowledges replies after their quiet times. `no_answer': a request that
%% was sent `tries' times is still unanswered.
-spec expired(milliseconds(), transactions()) -> {[effect(term())], transactions()}.
expired(Now, T) ->
    done(repeated(Now, T)).

repeated(Now, T = #transactions{open = Open}) ->
    Due = lists:sort([Number || {Number, #request{again = Again}} <- maps:to_list(Open), Again =< Now]),
    case [Number || Number <- Due, (maps:get(Number, Open))#request.left =:= 0] of
        [] -> acknowledge(Now, lists:foldl(fun(Number, Acc) -> again(Number, Now, Acc) end, T, Due));
        _ -> act(no_answer, T)
    end.

again(Number, Now, T = #transactions{open = Open}) ->
    #{Number := Request = #request{left = Left, interval = Before}} = Open,
    Interval = case Left of patiently -> min(2 * Before, ?MAX_RETRY); _ -> Before end,
    sent(Number, Now, T#transactions{open = Open#{Number := Request#request{interval = Interval}}}).

acknowledge(Now, T = #transactions{answered = Answered, sender = Sender}) ->
    case lists:partition(fun({_, Quiet}) -> Quiet =< Now end, Answered) of
        {[], _} -> T;
        {Quiet, Later} ->
            Message = lobby_h248:acknowledgement(Sender, lists:sort([Number || {Number, _} <- Quiet])),
            act({send, Message}, T#transactions{answered = Later})
    end.

%% @doc Returns when to call `expired/2' next.
-spec deadline(transactions()) -> milliseconds() | infinity.
deadline(#transactions{open = Open, answered = Answered}) ->
    Again = [Time || #request{again = Time} <- maps:values(Open)],
    Quiet = [Time || {_, Time} <- Answered],
    lists:min([infinity | Again ++ Quiet]).

%% @doc Holds back all requests until `resume/2'. Meanwhile, only new requests that aren't `queued' are sent.
-spec pause(transactions()) -> transactions().
pause(T = #transactions{open = Open, waiting = Waiting}) ->
    T#transactions{held = {Open, Waiting}, open = #{}, waiting = queue:new()}.

%% @doc Continues with the requests that were held back. Those that were sent before are sent again, with the same
%% numbers.
-spec resume(milliseconds(), transactions()) -> {[effect(term())], transactions()}.
resume(Now, T = #transactions{held = {Held, Waiting}, options = #{tries := Tries}}) ->
    Again = maps:map(fun(_, Request) -> Request#request{again = infinity, left = Tries} end, Held),
    Resumed = T#transactions{held = none, open = Again, waiting = Waiting},
    done(flush(Now, lists:foldl(fun(Number, Acc) -> begun(Number, Now, Acc) end, Resumed, lists:sort(maps:keys(Again))))).

%% @doc Abandons all requests. Returns those that were sent, because the gateway may have run them.
-spec abandon(transactions()) -> {[sent()], transactions()}.
abandon(T = #transactions{open = Open}) ->
    {Held, _} = held(T),
    {[Sent || #request{sent = Sent} <- maps:values(maps:merge(Held, Open))],
     T#transactions{held = none, open = #{}, waiting = queue:new()}}.

held(#transactions{held = none}) -> {#{}, queue:new()};
held(#transactions{held = Held}) -> Held.

%% @doc Returns whether a request that was sent or is queued has a `From' that passes this test.
-spec awaits(fun((From :: term()) -> boolean()), transactions()) -> boolean().
awaits(Is, T = #transactions{open = Open, waiting = Waiting}) ->
    {HeldOpen, HeldWaiting} = held(T),
    lists:any(fun(#request{from = From}) -> Is(From) end, maps:values(Open) ++ maps:values(HeldOpen))
        orelse queue:any(fun({From, _, _}) -> Is(From) end, queue:join(Waiting, HeldWaiting)).

%% @doc Returns the sender and the `From' of each request that is under way.
-spec open(transactions()) -> [{lobby_h248:sender(), From :: term()}].
open(#transactions{open = Open}) ->
    [{Sender, From} || #request{sent = {Sender, _, _}, from = From} <- maps:values(Open)].
