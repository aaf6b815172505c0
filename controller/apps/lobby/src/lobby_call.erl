%%% @doc The process of a call: a caller's dialog, and the caller's desired state in a room (`lobby_person').
%%%
%%% This process also handles the transactions of its dialog. It answers a retransmitted request with the same response.
%%% It retransmits its 200 until the ACK arrives (RFC 3261, section 13.3.1.4), and, over UDP, its own requests until
%%% they are answered. It gives up after a timeout.
%%%
%%% States: `starting': the room hasn't admitted the caller yet. `confirming': our 200 waits for its ACK. `talking': the
%%% call is established. `offering': our re-INVITE waits for a response. `ending': our BYE waits for a response.
-module(lobby_call).
-behaviour(gen_statem).

-include_lib("p1_sip/include/esip.hrl").

-export([start/3, start_link/3, callers/1, sources/0, find/1, set_aside/1]).
-export([callback_mode/0, init/1, handle_event/4]).

%% RFC 3261, section 17: T2 is 8 times T1, and a transaction times out after 64 times T1.
-define(T2, 8 * t1()).
-define(GIVE_UP, 64 * t1()).
%% Milliseconds per restored call: N restored calls are re-invited within N times this, to find out which callers are
%% still connected.
-define(SPREAD, 2).
%% The initial heap in words, which lets an INVITE be answered without garbage collection, and the milliseconds after
%% which an idle call hibernates.
-define(HEAP, 4096).
-define(IDLE, 1000).
%% In milliseconds: the timeout for admitting a new caller, the interval between attempts while no gateway has a free
%% seat, and the interval at which a row is sent again to a room that hasn't reported it.
-define(LET_IN, 5000).
-define(RETRY, 250).
-define(AGAIN, 1000).
%% Milliseconds of speech in a packet. The gateway is asked to send speech to a caller at the first multiple of this
%% time after the ACK. This batches callers, because a gateway answers a thousand requests a second, and newcomers wait
%% for its replies.
-define(PACKET, 20).
%% The media of a caller who hasn't offered any yet. The caller is added as Inactive, and the gateway sends nothing to
%% this address.
-define(NOWHERE, {{{0, 0, 0, 0}, 9}, pcmu}).

%% Reasons why calls end, for the audit log.
-define(NO_MEDIA, <<"the gateway doesn't take the caller's media">>).
-define(BAD_MEDIA, <<"the caller doesn't take the gateway's media">>).

-type state() :: starting | confirming | talking | offering | ending.
-record(call, {id :: binary(), dialog :: lobby_dialog:dialog(),
               %% The source of the caller's last request.
               source :: lobby_sip_message:target(),
               %% The caller's last session description, and the media address at which the gateway receives the caller.
               session = none :: lobby_sdp:session() | none, local = ?NOWHERE :: lobby_h248:media(),
               %% Our last session description: its id, its version and its text.
               description = {rand:uniform(16#7FFFFFFF), 0, <<>>} :: {pos_integer(), non_neg_integer(), binary()},
               %% The response to the caller's last INVITE, and whether it carries an offer.
               response = none :: lobby_sip_message:message() | none, offered = false :: boolean(),
               %% The session timer (RFC 4028): the time without a refresh, and the side that has to refresh the
               %% session.
               session_timer = none :: lobby_session_timer:timer(),
               %% Our last request, and whether a re-INVITE has to follow it.
               request = none :: lobby_sip_message:message() | none, again = false :: boolean(),
               %% The gateway's media address in our description that the caller hasn't answered or acknowledged yet.
               told = none :: lobby_h248:media() | none,
               %% The gateway's media address to which the caller has agreed to send.
               agreed = none :: lobby_h248:media() | none,
               %% The caller's request whose offer the gateway hasn't accepted yet.
               changing = none :: lobby_sip_message:message() | none,
               %% For the audit log: the call's start, its rooms, roles and codecs, and the reason for its end.
               began = none :: integer() | none, seen = #{} :: lobby_audit_core:seen(), why = <<"error">> :: binary(),
               %% Whether the log already says that no packets arrive from the caller.
               is_silent = false :: boolean(),
               %% The caller's desired state, which the store keeps separately.
               person = none :: lobby_person:person() | none,
               %% The state, and the actions of gen_statem after this event.
               state = talking :: state(), out = [] :: [gen_statem:action()]}).
%% The reason for a change of the media, which decides how the call continues: the first INVITE, a later request, or an
%% answer to our offer. With `none', the call continues as it is.
-type purpose() :: invite | {change, lobby_sip_message:message()} | answer | none.

%% @doc Starts a call for an initial INVITE.
-spec start(lobby_room:name(), lobby_sip_message:message(), lobby_sip_message:target()) -> {ok, pid()}.
start(Room, Invite, Source) ->
    Started = supervisor:start_child(lobby_call_sup, [Room, Invite, Source]),
    lobby_keeper:started(call, lobby_dialog:key(Invite), Started).

-spec start_link(lobby_room:name(), lobby_sip_message:message(), lobby_sip_message:target()) -> gen_statem:start_ret().
start_link(Room, Invite, Source) ->
    Name = {via, lobby_registry, {call, lobby_dialog:key(Invite)}},
    Options = [{hibernate_after, ?IDLE}, {spawn_opt, [{min_heap_size, ?HEAP}]}],
    lobby_keeper:running(gen_statem:start_link(Name, ?MODULE, {Room, Invite, Source}, Options)).

%% @doc Returns, by id, the names that callers give themselves, and those in members' links.
-spec callers([lobby_person:row()]) -> #{binary() => binary()}.
callers(Rows) ->
    maps:from_list([{Id, lobby_dialog:caller(dialog(Kept))}
                    || #{id := Id, call := Key} <- Rows,
                       {ok, Kept = #{invite := _}} <- [lobby_store:get(lobby_calls, Key)]]
                   ++ [{Id, Name} || #{id := Id, call := {web, _}, name := Name} <- Rows]).

%% Returns the dialog of a stored call. A call that isn't answered yet has only its INVITE.
dialog(#{call := #call{dialog = Dialog}}) -> Dialog;
dialog(#{invite := Invite}) -> lobby_dialog:new(Invite, <<>>).

%% @doc Returns the calls' processes, each with the stored source of its caller's requests.
-spec sources() -> [{pid(), lobby_sip_message:target()}].
sources() ->
    [{Pid, Source} || {Key, Pid} <- lobby_registry:names(call),
                      {ok, #{source := Source}} <- [lobby_store:get(lobby_calls, Key)]].

%% @doc Returns the process of a call. Starts it if only the store has the call.
-spec find(Key :: {binary(), binary()}) -> {ok, pid()} | error.
find(Key) ->
    case lobby_registry:whereis_name({call, Key}) of
        undefined -> restored(lobby_store:get(lobby_calls, Key));
        Pid -> {ok, Pid}
    end.

restored({ok, #{invite := Invite, room := Room, source := Source}}) ->
    {ok, Pid} = start(Room, Invite, Source),
    ok = gen_server:cast(lobby_sip, {started, Pid, Source}),
    {ok, Pid};
restored(error) ->
    error.

%% @doc Ends a call whose process fails repeatedly.
-spec set_aside(Key :: {binary(), binary()}) -> ok.
set_aside(Key) ->
    logger:error("the call ~0p fails again and again. It is ended", [Key]),
    Kept = [Kept || {ok, Kept} <- [lobby_store:get(lobby_calls, Key)]],
    lists:foreach(fun(Call = #call{dialog = Dialog}) ->
        {Bye, _} = lobby_dialog:request(<<"BYE">>, {[], <<>>}, own(Call), Dialog),
        ok = to_caller(Bye, Call)
    end, [Call || #{call := Call} <- Kept]),
    lists:foreach(fun recorded/1, [Call || #{call := Call} <- Kept]),
    Rows = [Row || #{id := Id} <- Kept, {ok, Row} <- [lobby_member:find(Id)]],
    lists:foreach(fun(Row) -> ok = leave(lobby_person:restored(Row)) end, Rows),
    lobby_store:delete(lobby_calls, Key).

%% Removes the caller from the room, without answering changes that are still waiting.
leave(Person) ->
    {_, Actions} = lobby_person:handle(leave, Person),
    lists:foreach(fun lobby_member:act/1, [Action || Action <- Actions, element(1, Action) =/= answer]).

-spec callback_mode() -> handle_event_function.
callback_mode() ->
    handle_event_function.

-spec init({lobby_room:name(), lobby_sip_message:message(), lobby_sip_message:target()}) ->
          {ok, state(), #call{} | new, [gen_statem:action()]}.
init({Room, Invite, Source}) ->
    case lobby_store:get(lobby_calls, lobby_dialog:key(Invite)) of
        {ok, #{call := Call = #call{id = Id}}} ->
            yes = lobby_registry:register_name({member, Id}, self()),
            case lobby_member:find(Id) of
                {ok, Row} -> {ok, talking, Call#call{person = lobby_person:restored(Row)}, resumption(Call)};
                error -> {ok, talking, Call, [{next_event, internal, {bye, <<"error">>}}]}
            end;
        Kept ->
            Id = case Kept of
                {ok, #{id := Known}} -> Known;
                error -> string:lowercase(binary:encode_hex(crypto:strong_rand_bytes(4)))
            end,
            {ok, starting, new, [{next_event, internal, {start, Id, Room, Invite, Source}}]}
    end.

%% Returns the first action of a restored call. If a request of the caller waits for a response, its change is made, and
%% then it is answered. Otherwise, a re-INVITE checks whether the caller is still connected.
resumption(#call{changing = none}) ->
    [{{timeout, ask}, rand:uniform(?SPREAD * lobby_store:size(lobby_calls)), invite}, {next_event, internal, again}];
resumption(#call{changing = Request}) ->
    [{next_event, internal, {resume, Request}}].

-spec handle_event(gen_statem:event_type(), term(), state(), #call{} | new) -> gen_statem:event_handler_result(state()).
handle_event(Type, Content, _, Call) ->
    case event(Type, Content, Call) of
        stopped -> {stop, normal};
        Next = #call{state = State, out = Out} -> {next_state, State, Next#call{out = []}, Out}
    end.

%% Adds actions of gen_statem after this event. If a timeout is set twice, the later setting counts.
with(Actions, Call = #call{out = Out}) -> Call#call{out = Out ++ Actions}.

event(internal, {start, Id, Room, Invite, Source}, new) ->
    start(Id, Room, Invite, Source);
event(internal, {resume, Request}, Call = #call{session = Session}) ->
    change(Session, #{}, {change, Request}, Call);
event(_, again, Call) ->
    person(again, Call);
event(_, What, Call) when What =:= invite; What =:= refresh ->
    invite(Call);
event(_, {bye, Why}, Call) ->
    bye(Why, Call);
event(_, expired, Call) ->
    bye(<<"the session wasn't refreshed">>, Call);
event(info, {sip, Request = #sip{type = request, method = Method}, Source}, Call) ->
    request(Method, Request, Source, Call);
event(info, {sip, Response = #sip{type = response}, _}, Call) ->
    response(Response, Call);
event(info, {lobby_room, _, _}, Call = #call{state = ending}) ->
    Call;
event(info, {lobby_room, Room, {admitted, Result}}, Call) ->
    person({admitted, Room, Result}, Call);
event(info, {lobby_room, Room, {report, Report}}, Call) ->
    reported(Report, person({report, Room, Report}, Call));
%% The gateway accepts no packets from the caller. A re-INVITE checks whether the caller is still connected.
event(info, {lobby_room, _, silent}, Call = #call{state = talking}) ->
    invite(silent(Call));
event(info, {answer, From, Answer}, Call) ->
    ok = lobby_member:answer(From, Answer),
    Call;
event({call, From}, hang_up, Call) ->
    Ended = bye(<<"an operator hung up">>, Call),
    gen_statem:reply(From, ok),
    Ended;
event({call, From}, _, Call = #call{state = ending}) ->
    with([{reply, From, {error, no_member}}], Call);
event({call, From}, {What, Wanted}, Call) when What =:= change; What =:= move ->
    person({What, {asked, From}, Wanted}, Call);
event({timeout, trying}, Request, Call = #call{source = Source}) ->
    reply(100, Request, Source, Call);
event({timeout, acknowledged}, true, Call = #call{state = State}) when State =/= ending ->
    person({change, {media, none}, #{acknowledged => true}}, Call);
event({timeout, let_in}, join, Call = #call{state = starting}) ->
    person({join, {joins, invite}}, Call);
%% The caller wasn't admitted in time, or the INVITE has expired.
event({timeout, let_in_at_all}, over, Call = #call{state = starting, changing = Invite}) ->
    case lobby_session_timer:invitation(Invite) < ?LET_IN of
        true -> refuse(487, [], Call);
        false -> refuse(503, [{'retry-after', {10, []}}], Call)
    end;
event({timeout, repeat}, {Message, Target, Interval}, Call) ->
    ok = lobby_sip:send(Target, Message),
    with([repeat(Message, Target, min(2 * Interval, ?T2))], Call);
%% The phone didn't acknowledge our 200, or didn't answer our request.
event({timeout, give_up}, give_up, Call = #call{state = ending}) ->
    stop(Call);
event({timeout, give_up}, give_up, Call) ->
    bye(<<"the caller didn't answer">>, Call);
event(_, _, Call) ->
    Call.

%%% The caller's desired state.

%% Passes an event to the person, and carries out the actions. A timer sends the row again until the room has reported
%% it.
person(Event, Call = #call{person = Person}) ->
    {Changed, Actions} = lobby_person:handle(Event, Person),
    Again = {{timeout, person}, case lobby_person:is_settled(Changed) of true -> infinity; false -> ?AGAIN end, again},
    lists:foldl(fun act/2, with([Again], seen(lobby_person:row(Changed), Call#call{person = Changed})), Actions).

seen(Row, Call = #call{seen = Before, state = State}) ->
    Changed = Call#call{seen = lobby_audit_core:seen(Row, Before)},
    case Changed =:= Call orelse State =:= starting of true -> Changed; false -> keep(Changed) end.

%% A stopped call ignores further actions.
act(_, stopped) ->
    stopped;
act({answer, {asked, From}, Answer}, Call) ->
    ok = lobby_member:answer(From, case Answer of {ok, _} -> ok; _ -> Answer end),
    Call;
act({answer, {_, Purpose}, Answer}, Call) ->
    media(Purpose, Answer, Call);
act(Action, Call) ->
    _ = [self() ! {lobby_room, Room, {admitted, Error}} || {admitted, Room, Error} <- [lobby_member:act(Action)]],
    Call.

%% Continues after the gateway has accepted or refused the media.
-spec media(purpose(), {ok, lobby_h248:media()} | {error, term()}, #call{}) -> #call{} | stopped.
media(invite, {ok, Local}, Call = #call{state = starting, changing = Invite}) ->
    LetIn = [{{timeout, Name}, infinity, none} || Name <- [let_in, let_in_at_all]],
    accept(Invite, keep(began(with(LetIn, Call#call{local = Local, changing = none}))));
media(invite, {error, no_room}, Call = #call{state = starting}) ->
    with([{{timeout, let_in}, ?RETRY, join}], Call);
media(invite, {error, Reason}, Call = #call{state = starting}) ->
    refuse(status(Reason), [], Call);
media({change, Request}, Result, Call = #call{changing = Request, state = State}) ->
    case {Result, Request#sip.method, State} of
        {_, <<"INVITE">>, ending} -> Call;
        {{error, {refused, _}}, _, _} ->
            with([no_trying()], answer(488, {[], <<>>}, Request, Call#call{changing = none}));
        %% If no gateway is available, the room applies the media later.
        {_, <<"INVITE">>, _} -> accept(Request, refreshed(Request, received_at(Result, Call)));
        {_, <<"UPDATE">>, _} -> updated(Request, received_at(Result, Call))
    end;
media(answer, {error, {refused, _}}, Call) ->
    bye(?NO_MEDIA, Call);
media(_, _, Call) ->
    Call.

received_at({ok, Local}, Call) -> Call#call{local = Local, changing = none};
received_at({error, _}, Call) -> Call#call{changing = none}.

%% Handles a room's report. If the address at which the gateway receives the caller has changed, the caller is
%% re-invited. If the gateway refuses the caller's media, and has no earlier ones, the call ends.
reported(_, stopped) ->
    stopped;
%% The room may have missed that the caller agreed, so it is notified again.
reported({holds, _, Local, false}, Call = #call{local = Local, agreed = Local}) ->
    agreed(Local, Call);
reported({holds, _, Local, _}, Call = #call{local = Local}) ->
    Call;
reported({holds, _, Local, _}, Call) ->
    with([{{timeout, invite}, 0, invite}], keep(Call#call{local = Local}));
reported({refused, _, _, none}, Call) ->
    with([{next_event, internal, {bye, ?NO_MEDIA}}], Call);
reported(_, Call) ->
    Call.

%% Logs, once per call, that the gateway accepts no packets. A gateway doesn't report which packets it drops.
silent(Call = #call{is_silent = true}) ->
    Call;
silent(Call = #call{id = Id, dialog = Dialog, session = Session}) ->
    {{Address, Port}, Format} = lobby_sdp:media(Session),
    logger:warning("the gateway accepts no packets from ~ts (~ts): ~ts:~b sends none, or none with 20 ms of ~ts",
                   [Id, lobby_dialog:caller(Dialog), inet:ntoa(Address), Port, string:uppercase(atom_to_list(Format))]),
    Call#call{is_silent = true}.

%%% The first INVITE.

start(Id, Room, Invite, Source) ->
    case {offer(Invite, Source), session_timer(Invite)} of
        {{error, Reason}, _} -> refuse(488, lobby_sdp:warning(Reason), Invite, Source);
        {_, {too_short, Headers}} -> refuse(422, Headers, Invite, Source);
        {Offer, _} ->
            Dialog = lobby_dialog:new(Invite, lobby_sip:own_tag(Invite)),
            Call = #call{id = Id, dialog = Dialog, source = Source, changing = Invite, state = starting,
                         session = case Offer of {ok, Session} -> Session; none -> none end},
            Key = lobby_dialog:key(Dialog),
            %% The call is stored before it joins, so that a restarted process doesn't join twice.
            ok = lobby_store:put(lobby_calls, Key, #{invite => Invite, id => Id, room => Room, source => Source}),
            yes = lobby_registry:register_name({member, Id}, self()),
            LetIn = min(?LET_IN, lobby_session_timer:invitation(Invite)),
            Waits = with([trying_later(Invite), {{timeout, let_in_at_all}, LetIn, over}], Call),
            person({join, {joins, invite}}, Waits#call{person = wanted(Key, Room, Invite, Call)})
    end.

%% Returns the desired state of a new caller. If the process failed before the room had admitted the caller, the stored
%% state is used again.
wanted(Key, Room, Invite, Call = #call{id = Id}) ->
    case lobby_member:find(Id) of
        {ok, Row} -> lobby_person:new(Row);
        error ->
            {Media, Direction} = described(Call),
            Known = lobby_identity:known(Invite, Call#call.source),
            Waits = lobby_room:has_door(Room) andalso not is_map_key(role, Known),
            Wanted = Known#{room => Room, media => Media, direction => Direction, call => Key, waiting => Waits,
                            acknowledged => false},
            lobby_person:new(lobby_member:new(Id, Wanted))
    end.

%% Section 17.2.1: a 100 is due if no other response is sent within 200 ms. The timer is shorter, so that the 100
%% arrives in time.
trying_later(Invite) -> {{timeout, trying}, 100, Invite}.
no_trying() -> {{timeout, trying}, infinity, none}.

refuse(Status, Headers, #call{dialog = Dialog, source = Source, person = Person, changing = Invite}) ->
    ok = leave(Person),
    ok = lobby_store:delete(lobby_calls, lobby_dialog:key(Dialog)),
    refuse(Status, Headers, Invite, Source).

refuse(Status, Headers, Invite, Source) ->
    _ = lobby_sip:answer(Status, {Headers, <<>>}, Invite, Source),
    stopped.

status(room_full) -> 486;
status(room_locked) -> 403;
status({refused, 515}) -> 488;
status(_) -> 503.

%% Returns the session description in a message, or `none' if the body is empty because the caller wants an offer. The
%% media address must be the caller's own, or an allowed one.
offer(Message, Source) ->
    case lobby_sip_message:body(Message) of
        <<>> -> none;
        Body -> allowed(lobby_sdp:parse(Body), Source)
    end.

allowed({ok, Session}, Source) ->
    {{Address, _}, _} = lobby_sdp:media(Session),
    Networks = #{media => application:get_env(lobby, media, []), proxies => application:get_env(lobby, proxies, [])},
    case lobby_auth:may_offer(Address, lobby_sip_message:address(Source), Networks) of
        true -> {ok, Session};
        false -> {error, foreign_address}
    end;
allowed(Error, _) ->
    Error.

described(#call{session = none}) -> {?NOWHERE, inactive};
described(#call{session = Session}) -> {lobby_sdp:media(Session), lobby_sdp:direction(Session)}.

%%% The audit log: a line when a call begins, and a line with its details when it ends.

began(Call) ->
    Call#call{began = lobby_audit:began(record(Call))}.

%% Writes the line about the call's end, once. Callers whom no room has admitted have no lines.
recorded(Call = #call{began = Began, why = Why}) ->
    _ = [lobby_audit:ended(record(Call), Began, Why) || Began =/= none],
    Call#call{began = none}.

record(#call{id = Id, dialog = Dialog, source = Source, person = Person, seen = Seen}) ->
    Row = case Person of none -> #{}; _ -> lobby_person:row(Person) end,
    Caller = lobby_json:named(Row, lobby_dialog:caller(Dialog)),
    {Id, [{from, list_to_binary(inet:ntoa(lobby_sip_message:address(Source)))} | maps:to_list(Caller)], Seen}.

%%% The caller's requests.

request(Method, Request, Source, Call = #call{state = starting, changing = Invite}) ->
    case {Method, lobby_dialog:is_same_transaction(Request, Invite)} of
        {<<"INVITE">>, true} -> reply(100, Request, Source, Call);
        %% The same INVITE has also arrived over another path (section 8.2.2.2).
        {<<"INVITE">>, false} -> reply(482, Request, Source, Call);
        {<<"CANCEL">>, false} -> reply(481, Request, Source, Call);
        {_, _} when Method =:= <<"CANCEL">>; Method =:= <<"BYE">> ->
            refuse(487, [], reply(200, Request, Source, Call#call{source = Source}));
        {_, _} -> Call
    end;
request(<<"ACK">>, Ack, Source, Call = #call{state = confirming, response = Response, offered = Offered}) ->
    IsOurs = lobby_sip_message:sequence(Ack) =:= lobby_sip_message:sequence(Response),
    case {IsOurs, Offered andalso offer(Ack, Source)} of
        {false, _} -> Call;
        {true, false} ->
            talk(with([acknowledged_soon()], agreed(Call#call{source = Source})));
        {true, {ok, Session}} -> answered(Session, agreed(Call#call{source = Source}));
        {true, _} -> bye(?BAD_MEDIA, Call#call{source = Source})
    end;
request(<<"ACK">>, _, _, Call) ->
    Call;
request(Method, Request, Source, Call) ->
    in_dialog(Method, Request, Call#call{source = Source}).

acknowledged_soon() ->
    {{timeout, acknowledged}, ?PACKET * (erlang:monotonic_time(millisecond) div ?PACKET + 1), true, [{abs, true}]}.

in_dialog(<<"CANCEL">>, Request, Call = #call{response = Last}) ->
    %% The CANCEL is too late: the INVITE has already been answered.
    IsKnown = Last =/= none andalso lobby_dialog:is_same_transaction(Request, Last),
    answer(case IsKnown of true -> 200; false -> 481 end, {[], <<>>}, Request, Call);
in_dialog(Method, Request, Call = #call{dialog = Dialog, state = State, changing = Changing}) ->
    case {lobby_dialog:received(Request, Dialog), Method, State} of
        {old, _, _} -> answer(500, {[], <<>>}, Request, Call);
        {_, <<"BYE">>, _} -> stop(answer(200, {[], <<>>}, Request, Call#call{why = <<"the caller hung up">>}));
        {repeated, <<"INVITE">>, _} -> again(Request, Call);
        {{new, D}, _, _} when Changing =/= none, Method =:= <<"INVITE">> orelse Method =:= <<"UPDATE">> ->
            answer(500, {[{'retry-after', {1, []}}], <<>>}, Request, Call#call{dialog = D});
        {_, <<"INVITE">>, ending} -> answer(481, {[], <<>>}, Request, Call);
        {{new, D}, <<"INVITE">>, offering} -> answer(491, {[], <<>>}, Request, Call#call{dialog = D});
        {_, <<"UPDATE">>, offering} -> answer(491, {[], <<>>}, Request, Call);
        {Received, _, _} when Method =:= <<"INVITE">>; Method =:= <<"UPDATE">> ->
            changes(Method, Request, newer(Received, Call));
        {Received, <<"OPTIONS">>, _} ->
            answer(200, {[lobby_sip_message:allow()], <<>>}, Request, newer(Received, Call));
        {Received, _, _} -> answer(405, {[lobby_sip_message:allow()], <<>>}, Request, newer(Received, Call))
    end.

newer({new, Dialog}, Call) -> Call#call{dialog = Dialog};
newer(repeated, Call) -> Call.

answer(Status, Content, Request, Call = #call{source = Source}) ->
    _ = lobby_sip:answer(Status, Content, Request, Source),
    keep(Call).

%% Sends a response, and leaves the call unchanged.
reply(Status, Request, Source, Call) ->
    _ = lobby_sip:answer(Status, {[], <<>>}, Request, Source),
    Call.

%% Answers a retransmitted INVITE with the stored response, or with 100 if the gateway hasn't accepted the INVITE's
%% offer yet.
again(Request, Call = #call{source = Source, response = Last, changing = none}) when Last =/= none ->
    case {lobby_dialog:is_same_transaction(Request, Last), lobby_sip_message:tag(to, Request)} of
        {true, _} -> ok = lobby_sip:send(lobby_sip_message:response_target(Request, Source), Last), Call;
        %% The same INVITE has also arrived over another path (section 8.2.2.2).
        {false, <<>>} -> reply(482, Request, Source, Call);
        {false, _} -> Call
    end;
again(_, Call = #call{changing = none}) ->
    Call;
again(Request, Call = #call{source = Source}) ->
    reply(100, Request, Source, Call).

%% An UPDATE without a session description only refreshes the session.
changes(Method, Request, Call = #call{source = Source}) ->
    case {session_timer(Request), offer(Request, Source), Method} of
        {{too_short, Headers}, _, _} -> answer(422, {Headers, <<>>}, Request, Call);
        {_, {error, Reason}, _} -> answer(488, {lobby_sdp:warning(Reason), <<>>}, Request, Call);
        {_, none, <<"INVITE">>} -> accept(Request, refreshed(Request, Call));
        {_, none, <<"UPDATE">>} -> updated(Request, Call);
        {_, {ok, Session}, _} ->
            Later = [trying_later(Request) || Method =:= <<"INVITE">>],
            change(Session, #{}, {change, Request}, with(Later, Call#call{changing = Request}))
    end.

updated(Request, Call) ->
    {Content, Described} = case lobby_sip_message:body(Request) of
        <<>> -> {{[], <<>>}, Call};
        _ -> our_answer(Call)
    end,
    {_, Updated = #call{local = Local, agreed = Agreed}} = send_ok(Request, Content, refreshed(Request, Described)),
    %% No ACK confirms this answer, so a re-INVITE repeats a new media address.
    with([{{timeout, invite}, 0, invite} || Local =/= Agreed], keep(Updated)).

%% Sends a 200 to an INVITE or an UPDATE, and restarts the session timer.
send_ok(Request, {Headers, Body}, Call = #call{source = Source}) ->
    Timer = session_timer(Request),
    Content = {[lobby_dialog:contact(own(Call)) | lobby_session_timer:answer(Timer)] ++ Headers, Body},
    Timed = Call#call{session_timer = Timer},
    {lobby_sip:answer(200, Content, Request, Source), with([session_timeout(Timed)], Timed)}.

refreshed(Message, Call = #call{dialog = Dialog}) ->
    Call#call{dialog = lobby_dialog:refreshed(Message, Dialog)}.

session_timer(Request) ->
    lobby_session_timer:asked(Request, application:get_env(lobby, min_se, 90)).

session_timeout(#call{session_timer = Timer}) ->
    {Time, What} = lobby_session_timer:timeout(Timer),
    {{timeout, session}, Time, What}.

%% Asks the room for the media in the caller's new session description.
change(Session, More, Purpose, Call) ->
    Change = More#{media => lobby_sdp:media(Session), direction => lobby_sdp:direction(Session)},
    person({change, {media, Purpose}, Change}, keep(Call#call{session = Session})).

%% Sends the 200 with our answer, or with our offer if the caller sent none.
accept(Request, Call = #call{local = Local, source = Source}) ->
    Offered = lobby_sip_message:body(Request) =:= <<>>,
    {Content, Described} = case Offered of true -> our_offer(Call); false -> our_answer(Call) end,
    {Response, Accepted} = send_ok(Request, Content, Described),
    Target = lobby_sip_message:response_target(Request, Source),
    with([repeat(Response, Target, t1()), give_up(), no_trying()],
         keep(Accepted#call{response = Response, offered = Offered, told = Local, state = confirming})).

our_answer(Call = #call{session = Session, local = Local}) ->
    described(fun(Id, Version) -> lobby_sdp:answer(Session, Local, Id, Version) end, Call).

our_offer(Call = #call{session = Session, local = Local}) ->
    described(fun(Id, Version) -> lobby_sdp:offer(Session, Local, {Id, Version}) end, Call).

%% Returns our session description, with a new version if the text has changed (RFC 3264, section 8).
described(Describe, Call = #call{description = {Id, Version, Before}}) ->
    Description = case Describe(Id, Version) of
        Before -> {Id, Version, Before};
        _ -> {Id, Version + 1, Describe(Id, Version + 1)}
    end,
    Headers = [lobby_sip_message:allow(), {'content-type', {<<"application/sdp">>, []}}],
    {{Headers, element(3, Description)}, Call#call{description = Description}}.

own(#call{source = Source}) ->
    lobby_sip:own(Source).

%% Handles the answer to our offer, in an ACK or a 200. From now on, the gateway may send speech to the caller.
answered(Session, Call) ->
    change(Session, #{acknowledged => true}, answer, talk(Call)).

talk(Call = #call{again = true}) -> invite(Call#call{state = talking, again = false});
talk(Call) -> with([session_timeout(Call) | quiet()], keep(Call#call{state = talking})).

%%% Our requests.

invite(Call = #call{state = talking, local = Local, session_timer = Timer}) ->
    {{Headers, Body}, Call1} = our_offer(Call),
    send(<<"INVITE">>, {lobby_session_timer:request(Timer) ++ Headers, Body}, offering, Call1#call{told = Local});
invite(Call = #call{state = State}) when State =:= confirming; State =:= offering ->
    Call#call{again = true};
invite(Call) ->
    Call.

bye(_, Call = #call{state = ending}) -> Call;
bye(_, Call = #call{state = starting}) -> refuse(480, [], Call);
bye(Why, Call) -> send(<<"BYE">>, {[], <<>>}, ending, recorded(left(Call#call{why = Why}))).

%% Makes the caller leave the room before the call ends. After that, no room is sent the caller's row.
left(Call = #call{person = none}) -> Call;
left(Call) -> with([{{timeout, person}, infinity, none}], person(leave, Call)).

%% Sends a request, after storing its sequence number.
send(Method, Content, Next, Call = #call{dialog = Dialog, source = Source}) ->
    {Request, Dialog1} = lobby_dialog:request(Method, Content, own(Call), Dialog),
    Call1 = keep(Call#call{dialog = Dialog1, request = Request, state = Next}),
    Target = lobby_dialog:target(Dialog1, Source),
    ok = lobby_sip:send(Target, Request),
    %% Over TCP, requests aren't retransmitted (section 17.1.1.2).
    Interval = case Target of {tcp, _, _} -> infinity; _ -> t1() end,
    with([repeat(Request, Target, Interval), give_up()], Call1).

response(Response = #sip{status = Status, method = Method}, Call = #call{request = Request, state = State}) ->
    IsLast = Request =/= none andalso lobby_sip_message:sequence(Response) =:= lobby_sip_message:sequence(Request),
    case {IsLast, Method, State} of
        {true, <<"INVITE">>, offering} when Status < 200 -> with([{{timeout, repeat}, infinity, none}], Call);
        {true, <<"INVITE">>, offering} when Status < 300 -> accepted(Response, Call);
        {true, <<"INVITE">>, offering} -> refused(Status, Response, Call);
        %% Our ACK was lost, or the response belongs to an INVITE from before a takeover.
        {_, <<"INVITE">>, _} when Status >= 200, Status < 300 -> ok = acknowledge(Response, Call), Call;
        {true, <<"BYE">>, ending} when Status >= 200 -> stop(Call);
        {_, _, _} -> Call
    end.

accepted(Response, Call = #call{source = Source}) ->
    Accepted = refreshed(Response, Call),
    ok = acknowledge(Response, Accepted),
    case offer(Response, Source) of
        {ok, Session} -> answered(Session, agreed(Accepted));
        _ -> bye(?BAD_MEDIA, (agreed(Accepted))#call{state = talking})
    end.

agreed(Call = #call{told = Told}) ->
    agreed(Told, Call).

%% Notes that the caller now sends to this address, and notifies the room.
agreed(Local, Call = #call{id = Id, person = Person}) ->
    #{room := Room} = lobby_person:row(Person),
    _ = lobby_room:tell(Room, {confirmed, Id, Local}),
    Call#call{agreed = Local}.

acknowledge(Response, Call = #call{dialog = Dialog}) ->
    to_caller(lobby_dialog:ack(Response, own(Call), Dialog), Call).

to_caller(Message, #call{dialog = Dialog, source = Source}) ->
    lobby_sip:send(lobby_dialog:target(Dialog, Source), Message).

%% Acknowledges a failure response, in the same transaction (section 17.1.1.3). If both sides sent an INVITE, the side
%% that doesn't own the Call-ID retries within 2 s (section 14.1).
refused(Status, Response, Call = #call{request = Invite = #sip{hdrs = Headers}}) ->
    Keys = [via, 'max-forwards', from, 'call-id', cseq, route],
    Kept = [Header || Header = {Key, _} <- Headers, lists:member(Key, Keys)],
    Ack = Invite#sip{method = <<"ACK">>, body = <<>>, hdrs = Kept ++ [{to, lobby_sip_message:header(to, Response)}]},
    ok = to_caller(Ack, Call),
    case lobby_dialog:after_refusal(Status) of
        ended -> stop(Call#call{why = <<"the caller's phone has ended it">>});
        again -> with(quiet() ++ [{{timeout, invite}, 10 * rand:uniform(200), invite}], Call#call{state = talking});
        %% The caller still sends to an address at which the gateway no longer receives the caller.
        goes_on when Call#call.told =/= Call#call.agreed -> bye(?BAD_MEDIA, Call#call{state = talking});
        goes_on -> talk(Call)
    end.

repeat(Message, Target, Interval) -> {{timeout, repeat}, Interval, {Message, Target, Interval}}.
give_up() -> {{timeout, give_up}, ?GIVE_UP, give_up}.
t1() -> application:get_env(lobby, t1, 500).
quiet() -> [{{timeout, repeat}, infinity, none}, {{timeout, give_up}, infinity, none}].

%%% The state that outlives this process.

%% Stores the call. A restarted process continues in the state `talking'.
keep(Call = #call{dialog = Dialog, source = Source}) ->
    {ok, Kept} = lobby_store:get(lobby_calls, lobby_dialog:key(Dialog)),
    Known = Call#call{person = none, state = talking, out = []},
    ok = lobby_store:put(lobby_calls, lobby_dialog:key(Dialog), Kept#{source := Source, call => Known}),
    Call.

stop(Call = #call{dialog = Dialog}) ->
    _ = recorded(left(Call#call{state = ending})),
    ok = lobby_store:delete(lobby_calls, lobby_dialog:key(Dialog)),
    stopped.
