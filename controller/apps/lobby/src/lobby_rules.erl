%%% @doc Rules about members and roles, which decide who hears whom in a room.
%%%
%%% In a list of rules, the last rule that matches a talker and a listener decides. If no rule matches, the listener
%%% hears the talker. Rules name members, never terminations, so they hold on any gateway.
-module(lobby_rules).

-export([hears/3, flows/2, flows/3, add/2, forget/2, named/1, preset/1, oneway/2]).
-export_type([id/0, role/0, party/0, rule/0, member/0, flow/0, flows/0]).

-define(MAX_RULES, 256).

-type id() :: term().
-type role() :: binary().
-type party() :: everyone | {role, role()} | {member, id()}.
%% A rule says whether the listener hears the talker.
-type rule() :: {allow | deny, Talker :: party(), Listener :: party()}.
-type member() :: {id(), role()}.
-type flow() :: {Talker :: id(), Listener :: id()}.
%% A set of open flows.
-type flows() :: sets:set(flow()).

%% @doc Returns whether the rules let a listener hear a talker. Members never hear themselves.
-spec hears(Listener :: member(), Talker :: member(), [rule()]) -> boolean().
hears({Id, _}, {Id, _}, _) ->
    false;
hears(Listener, Talker, Rules) ->
    Matching = [Verdict || {Verdict, From, To} <- Rules, is_party(Talker, From), is_party(Listener, To)],
    Matching =:= [] orelse lists:last(Matching) =:= allow.

is_party(_, everyone) -> true;
is_party({_, Role}, {role, Wanted}) -> Role =:= Wanted;
is_party({Id, _}, {member, Wanted}) -> Id =:= Wanted.

%% @doc Returns the flows that the rules leave open between these members.
-spec flows([member()], [rule()]) -> flows().
flows(Members, Rules) ->
    flows(Members, Members, Rules).

%% @doc Returns the flows that the rules leave open from these talkers to these listeners.
-spec flows(Talkers :: [member()], Listeners :: [member()], [rule()]) -> flows().
flows(Talkers, Listeners, Rules) ->
    sets:from_list([{From, To} || Talker = {From, _} <- Talkers, Listener = {To, _} <- Listeners,
                                  hears(Listener, Talker, Rules)], [{version, 2}]).

%% @doc Appends rules. A new rule replaces an earlier one about the same two parties, which it would override.
-spec add([rule()], [rule()]) -> {ok, [rule()]} | {error, too_many_rules}.
add(New, Rules) ->
    Kept = [Rule || Rule = {_, From, To} <- Rules, not lists:any(fun({_, F, T}) -> {F, T} =:= {From, To} end, New)],
    case Kept ++ New of
        All when length(All) =< ?MAX_RULES -> {ok, All};
        _ -> {error, too_many_rules}
    end.

%% @doc Drops the rules that name a member who left.
-spec forget(id(), [rule()]) -> [rule()].
forget(Id, Rules) ->
    [Rule || Rule = {_, From, To} <- Rules, From =/= {member, Id}, To =/= {member, Id}].

%% @doc Returns the members whom the rules name.
-spec named([rule()]) -> [id()].
named(Rules) ->
    lists:usort([Id || {_, From, To} <- Rules, {member, Id} <- [From, To]]).

%% @doc Returns the rules of a preset, which refer to roles.
-spec preset(plain | lecture | coaching | monitored) -> [rule()].
preset(plain) -> [];
preset(lecture) -> [{deny, {role, <<"listener">>}, everyone}];
preset(coaching) -> [{deny, {role, <<"coach">>}, {role, <<"customer">>}}];
preset(monitored) -> [{deny, {role, <<"monitor">>}, everyone}].

%% @doc Returns rules by which the listener hears the talker, but not vice versa.
-spec oneway(Talker :: party(), Listener :: party()) -> [rule()].
oneway(Talker, Listener) -> [{allow, Talker, Listener}, {deny, Listener, Talker}].
