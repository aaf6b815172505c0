%%% @doc The process of a link: the desired state of its member (`lobby_person'), who is in a browser, and the member's
%%% calls in rtpengine.
%%%
%%% A link has one member. The browser sends an offer in a POST, and gets the answer (WHIP, RFC 9725). Another POST,
%%% from any browser, replaces the previous one, and the member keeps role, mute and isolation. rtpengine has a call for
%%% each POST. If the address at which the gateway receives the member changes, only rtpengine is notified. This process
%%% never waits for rtpengine, because it also handles changes.
-module(lobby_web).
-behaviour(gen_server).

-export([start_link/1, join/3, ask/2, find/1, offer/1]).
-export([init/1, handle_call/3, handle_cast/2, handle_info/2]).

%% Milliseconds until a row is sent again to a room that hasn't reported it.
-define(AGAIN, 1000).
%% Milliseconds within which a browser must be admitted, and between checks whether the previous POST is still joining.
-define(LET_IN, 8000).
-define(SOON, 50).

-record(leg, {link :: lobby_link:link(), person = none :: lobby_person:person() | none,
              %% The POST that is being answered: its id, the waiting request, the offer, and rtpengine's description of
              %% the offer.
              post = none :: {binary(), gen_server:from(), binary(), lobby_sdp:session() | none} | none,
              %% The POST that was answered last, the address to which rtpengine sends its media, and the address at
              %% which the gateway receives them.
              current = none :: {binary(), Offer :: binary(), lobby_sdp:session()} | none,
              local = none :: lobby_h248:media() | none, wanted = none :: lobby_h248:media() | none,
              version = 1 :: pos_integer(), is_telling = false :: boolean(), from = <<>> :: binary(),
              began = none :: integer() | none, seen = #{} :: lobby_audit_core:seen()}).
-type error() :: lobby_link:error() | lobby_member:error() | no_relay | replaced | not_here | {invalid, binary()}.

%% @doc Joins with a link, from an address. Returns the id of the POST, and the answer to the offer.
-spec join(lobby_link:link(), Offer :: binary(), From :: binary()) -> {ok, Id :: binary(), binary()} | {error, error()}.
join(Link = #{number := Number}, Offer, From) ->
    Request = {join, offer(Offer), From},
    call(case find({web, Number}) of error -> started(Link); Found -> Found end, Request).

%% @doc Returns the member's state, or ends the member's call, unless another POST has replaced the one with this id.
%% `hang_up' ends the call in any case.
-spec ask(Number :: binary(), {state | leave, Id :: binary()} | hang_up) -> ok | {ok, map()} | {error, error()}.
ask(Number, Request) ->
    call(find({web, Number}), Request).

call(error, _) -> {error, not_here};
call({ok, Pid}, Request) ->
    try gen_server:call(Pid, Request, ?LET_IN + 2000)
    catch exit:{Reason, _} when Reason =:= normal; Reason =:= noproc -> {error, not_here}
    end.

started(Link = #{number := Number}) ->
    lobby_keeper:started(call, {web, Number}, supervisor:start_child(lobby_web_sup, [Link])).

%% @doc Returns the process of a link. Starts it if only the store has its call.
-spec find({web, Number :: binary()}) -> {ok, pid()} | error.
find(Key) ->
    case {lobby_registry:whereis_name({call, Key}), lobby_store:get(lobby_calls, Key)} of
        {undefined, {ok, #{leg := #leg{link = Link}}}} -> started(Link);
        {undefined, error} -> error;
        {Pid, _} -> {ok, Pid}
    end.

%% @doc Returns an offer without addresses. rtpengine learns the address from the browser's checks, and sends nothing to
%% the addresses in an offer. Throws `{invalid, Text}' if the offer isn't encrypted or isn't UTF-8.
-spec offer(binary()) -> binary().
offer(Text) ->
    _ = [throw({invalid, <<"the offer isn't UTF-8">>}) || unicode:characters_to_binary(Text) =/= Text],
    Lines = binary:split(Text, [<<"\r\n">>, <<"\n">>], [global, trim_all]),
    Is = fun(Pattern) -> [Line || Line <- Lines, re:run(Line, Pattern) =/= nomatch] end,
    Media = Is("^m="),
    _ = [throw({invalid, <<"the offer must be encrypted (UDP/TLS/RTP/SAVPF, with a fingerprint)">>})
         || Media =:= [] orelse Is("^a=fingerprint:sha-(256|384|512) ") =:= [] orelse Is("^a=ice-ufrag:") =:= []
            orelse Is("^m=[a-z]+ [0-9]+ UDP/TLS/RTP/SAVPF ") ++ Is("^m=application ") =/= Media],
    iolist_to_binary([[re:replace(Line, "^c=.*", "c=IN IP4 0.0.0.0"), "\r\n"]
                      || Line <- Lines -- (Is("^a=candidate:") ++ Is("^a=end-of-candidates") ++ Is("^a=rtcp:"))]).

-spec start_link(lobby_link:link()) -> gen_server:start_ret().
start_link(Link = #{number := Number}) ->
    lobby_keeper:running(gen_server:start_link({via, lobby_registry, {call, {web, Number}}}, ?MODULE, Link, [])).

-spec init(lobby_link:link()) -> {ok, #leg{}}.
init(Link = #{number := Number}) ->
    yes = lobby_registry:register_name({member, id(Link)}, self()),
    _ = erlang:send_after(?AGAIN, self(), again),
    case {lobby_store:get(lobby_calls, {web, Number}), lobby_member:find(id(Link))} of
        {{ok, #{leg := Leg}}, {ok, Row}} -> {ok, Leg#leg{person = lobby_person:restored(Row)}};
        _ ->
            ok = lobby_store:delete(lobby_calls, {web, Number}),
            {ok, #leg{link = Link}}
    end.

id(#{number := <<Id:8/binary, _/binary>>}) -> Id.

-spec handle_call(term(), gen_server:from(), #leg{}) ->
          {reply, term(), #leg{}} | {noreply, #leg{}} | {stop, normal, term(), #leg{}}.
handle_call({join, Offer, Address}, From, Leg0) ->
    Leg = refused({error, replaced}, Leg0),
    Id = string:lowercase(binary:encode_hex(crypto:strong_rand_bytes(8))),
    _ = erlang:send_after(?LET_IN, self(), {too_late, Id}),
    ok = relay({offer, Id}, Id, (to_room(Offer))#{command => offer, 'from-tag' => web}),
    {noreply, Leg#leg{post = {Id, From, Offer, none}, from = Address}};
%% The browser doesn't show that its member is isolated, unless `show_isolation' is set.
handle_call({state, Id}, _, Leg = #leg{current = {Id, _, _}, person = Person}) when Person =/= none ->
    Row = #{waiting := IsWaiting} = lobby_person:row(Person),
    Shown = maps:with([isolated || application:get_env(lobby, show_isolation, false)], Row),
    State = case lobby_rtpengine:state() of serving when IsWaiting -> waiting; serving -> in; _ -> lost end,
    {reply, {ok, Shown#{state => State}}, Leg};
%% rtpengine has lost the member, so the browser has to send another POST.
handle_call({state, _}, _, Leg = #leg{current = none, person = Person}) when Person =/= none ->
    {reply, {ok, #{state => lost}}, Leg};
handle_call({leave, Id}, _, Leg = #leg{current = {Id, _, _}}) ->
    {stop, normal, ok, left(<<"the caller hung up">>, Leg)};
handle_call({What, _}, _, Leg) when What =:= state; What =:= leave ->
    {reply, {error, case Leg#leg.current of none -> not_here; _ -> replaced end}, Leg};
handle_call(hang_up, _, Leg) ->
    {stop, normal, ok, left(<<"an operator hung up">>, Leg)};
handle_call(_, _, Leg = #leg{person = none}) -> {reply, {error, no_member}, Leg};
handle_call({What, Wanted}, From, Leg) when What =:= change; What =:= move ->
    {noreply, person({What, {asked, From}, Wanted}, Leg)}.

-spec handle_cast(term(), #leg{}) -> {noreply, #leg{}}.
handle_cast(_, Leg) -> {noreply, Leg}.

-spec handle_info(term(), #leg{}) -> {noreply, #leg{}} | {stop, normal, #leg{}}.
handle_info({rtpengine, {offer, Id}, Result}, Leg = #leg{post = {Id, From, Offer, none}}) ->
    IsJoining = Leg#leg.person =/= none andalso lobby_person:is_joining(Leg#leg.person),
    case described(Result) of
        %% The previous POST is still joining.
        {ok, _} when IsJoining ->
            _ = erlang:send_after(?SOON, self(), {rtpengine, {offer, Id}, Result}),
            {noreply, Leg};
        {ok, Session} ->
            Media = #{media => lobby_sdp:media(Session), direction => sendrecv},
            {noreply, wanted(Id, Media, Leg#leg{post = {Id, From, Offer, Session}})};
        Error -> {noreply, refused(Error, Leg)}
    end;
handle_info({rtpengine, {answer, Id}, {ok, #{<<"sdp">> := Answer}}}, Leg = #leg{post = {Id, From, Offer, Session}}) ->
    _ = [relay(ended, Old, #{command => delete}) || {Old, _, _} <- [Leg#leg.current]],
    gen_server:reply(From, {ok, Id, Answer}),
    {noreply, agreed(keep(began(Leg#leg{post = none, current = {Id, Offer, Session}, is_telling = false})))};
handle_info({rtpengine, {answer, Id}, Error}, Leg = #leg{post = {Id, _, _, _}}) ->
    {noreply, refused(Error, Leg)};
handle_info({too_late, Id}, Leg = #leg{post = {Id, _, _, _}}) ->
    {noreply, refused({error, not_yet}, Leg)};
handle_info({rtpengine, {moved, Local}, {ok, _}}, Leg = #leg{current = {Id, Offer, _}}) ->
    ok = relay({told, Local}, Id, (to_room(Offer))#{command => answer, 'from-tag' => room, 'to-tag' => web}),
    {noreply, Leg};
handle_info({rtpengine, {told, Local}, {ok, _}}, Leg) ->
    {noreply, agreed(keep(Leg#leg{local = Local, is_telling = false}))};
%% rtpengine is lost, or no longer has this call. The browser learns that from its next query, and joins again.
handle_info({rtpengine, {What, _}, {error, _}}, Leg) when What =:= moved; What =:= told ->
    {noreply, Leg#leg{is_telling = false}};
handle_info({rtpengine, lost, now}, Leg = #leg{current = {Id, _, _}}) ->
    ok = relay(ended, Id, #{command => delete}),
    {noreply, keep(Leg#leg{current = none})};
handle_info({lobby_room, Room, {admitted, Result}}, Leg) ->
    {noreply, person({admitted, Room, Result}, Leg)};
handle_info({lobby_room, Room, {report, Report}}, Leg) ->
    {noreply, reported(Report, person({report, Room, Report}, Leg))};
%% The browser is gone, because it would send packets even with its microphone off.
handle_info({lobby_room, _, silent}, Leg = #leg{post = none}) ->
    ended(<<"the gateway has received no packets">>, Leg);
handle_info({answer, From, Answer}, Leg) ->
    ok = lobby_member:answer(From, Answer),
    {noreply, Leg};
%% No POST is open, and the member isn't in a room.
handle_info(again, Leg = #leg{person = none, post = none}) ->
    {stop, normal, Leg};
handle_info(again, Leg = #leg{person = Person}) ->
    _ = erlang:send_after(?AGAIN, self(), again),
    IsSettled = Person =:= none orelse lobby_person:is_settled(Person),
    {noreply, moved(case IsSettled of true -> Leg; false -> person(again, Leg) end)};
handle_info(_, Leg) ->
    {noreply, Leg}.

described({ok, #{<<"sdp">> := Text}}) ->
    case lobby_sdp:parse(Text) of
        {ok, Session} -> {ok, Session};
        {error, _} -> {error, {invalid, <<"the offer has no audio that the gateway takes (G.711)">>}}
    end;
described({error, no_relay}) -> {error, no_relay};
described(Other) ->
    logger:warning("rtpengine answered an offer by ~0P", [Other, 30]),
    {error, {invalid, <<"the offer can't be relayed">>}}.

%% Joins the link's room, unless the member is in a room already. Role, mute and isolation from earlier calls still
%% apply.
wanted(Id, Media, Leg = #leg{person = none, link = Link = #{number := Number, room := Room}}) ->
    New = (maps:with([room, role, name], Link))#{waiting => lobby_room:has_door(Room), call => {web, Number},
                                                 identity => <<"link:", Number/binary>>},
    Row = lobby_member:new(id(Link), maps:merge(maps:merge(New, Media), lobby_link:kept(Number))),
    person({join, {joins, Id}}, keep(Leg#leg{person = lobby_person:new(Row)}));
wanted(Id, Media, Leg) ->
    person({change, {media, Id}, Media}, Leg).

%% Passes an event to the person. Role, mute and isolation are stored first, so that they outlive the call.
person(Event, Leg = #leg{person = Person, link = #{number := Number}}) ->
    {Changed, Actions} = lobby_person:handle(Event, Person),
    [Before, Now] = [maps:with([isolated, muted, waiting, role], lobby_person:row(P)) || P <- [Person, Changed]],
    _ = [lobby_link:keep(Number, Now) || Now =/= Before],
    Seen = lobby_audit_core:seen(lobby_person:row(Changed), Leg#leg.seen),
    lists:foldl(fun act/2, Leg#leg{person = Changed, seen = Seen}, Actions).

act({answer, {asked, From}, Answer}, Leg) ->
    ok = lobby_member:answer(From, case Answer of {ok, _} -> ok; _ -> Answer end),
    Leg;
act({answer, {_, Id}, {ok, Local}}, Leg = #leg{post = {Id, _, _, Session}}) ->
    Request = to_browser(lobby_sdp:answer(Session, Local, 1, 1)),
    ok = relay({answer, Id}, Id, Request#{command => answer, 'from-tag' => web, 'to-tag' => room}),
    Leg#leg{local = Local, wanted = Local};
act({answer, {How, Id}, Error = {error, _}}, Leg = #leg{post = {Post, _, _, _}}) when How =:= joins; Id =:= Post ->
    refused(Error, Leg);
act({answer, _, _}, Leg) -> Leg;
act(Action, Leg) ->
    _ = [self() ! {lobby_room, Room, {admitted, Error}} || {admitted, Room, Error} <- [lobby_member:act(Action)]],
    Leg.

%% Answers a POST that failed. A member whose media was never relayed leaves the room, unless another POST has replaced
%% this one. A member whose media was relayed stays, and the browser sends another POST.
refused(_, Leg = #leg{post = none}) -> Leg;
refused(Error, Leg = #leg{post = {Id, From, _, _}, began = Began}) ->
    ok = relay(ended, Id, #{command => delete}),
    gen_server:reply(From, case Error of {error, {relay, _}} -> {error, no_relay}; _ -> Error end),
    _ = [ended(<<"error">>, Leg#leg{post = none}) || Began =:= none, Error =/= {error, replaced}],
    Leg#leg{post = none}.

reported({holds, _, Local, _}, Leg) -> moved(Leg#leg{wanted = Local});
reported({refused, _, _, none}, Leg = #leg{post = none}) -> ended(<<"the gateway doesn't take the media">>, Leg);
reported(_, Leg) -> Leg.

%% Sends rtpengine the gateway's new address in an offer. The browser's own description serves as the answer.
moved(Leg = #leg{post = none, current = {Id, _, Session}, local = Local, wanted = Wanted, is_telling = false})
  when Wanted =/= Local, Wanted =/= none ->
    Version = Leg#leg.version,
    Text = lobby_sdp:offer(Session, Wanted, {1, Version + 1}),
    ok = relay({moved, Wanted}, Id, (to_browser(Text))#{command => offer, 'from-tag' => room, 'to-tag' => web}),
    Leg#leg{version = Version + 1, is_telling = true};
moved(Leg = #leg{current = {_, _, _}, local = Local, wanted = Local}) -> agreed(Leg);
moved(Leg) -> Leg.

%% Notifies the room that rtpengine now sends to the new address.
agreed(Leg = #leg{link = Link, local = Local, person = Person}) ->
    #{room := Room} = lobby_person:row(Person),
    _ = lobby_room:tell(Room, {confirmed, id(Link), Local}),
    Leg.

%% Throws the callback's result, which gen_server allows.
-spec ended(binary(), #leg{}) -> no_return().
ended(Why, Leg) ->
    throw({stop, normal, left(Why, Leg)}).

left(Why, Leg0) ->
    Leg = #leg{link = #{number := Number}, person = Person, began = Began} = refused({error, replaced}, Leg0),
    _ = [relay(ended, Id, #{command => delete}) || {Id, _, _} <- [Leg#leg.current]],
    _ = [person(leave, Leg) || Person =/= none],
    _ = [lobby_audit:ended(record(Leg), Began, Why) || Began =/= none],
    ok = lobby_store:delete(lobby_calls, {web, Number}),
    Leg.

keep(Leg = #leg{link = Link = #{number := Number, room := Room}}) ->
    Kept = Leg#leg{person = none, post = none, is_telling = false},
    ok = lobby_store:put(lobby_calls, {web, Number}, #{id => id(Link), room => Room, leg => Kept}),
    Leg.

began(Leg = #leg{began = none}) -> Leg#leg{began = lobby_audit:began(record(Leg))};
began(Leg) -> Leg.

record(#leg{link = Link = #{number := Number, name := Name}, from = From, seen = Seen}) ->
    {id(Link), [{from, From}, {link, Number}, {caller, Name}, {says, Name}, {proved, true}], Seen}.

%%% Requests to rtpengine.

relay(Tag, Id, Request) ->
    lobby_rtpengine:ask(Tag, Request#{'call-id' => <<"web-", Id/binary>>}).

to_room(Sdp) ->
    #{sdp => Sdp, replace => [origin, 'session-connection'], 'transport-protocol' => <<"RTP/AVP">>, 'ICE' => remove,
      'rtcp-mux' => [demux], direction => [outside, inside]}.

to_browser(Sdp) ->
    #{sdp => Sdp, replace => [origin, 'session-connection'], 'transport-protocol' => <<"UDP/TLS/RTP/SAVPF">>,
      'ICE' => force, 'rtcp-mux' => [require], flags => ['SDES-off', 'generate-mid'], direction => [inside, outside]}.
