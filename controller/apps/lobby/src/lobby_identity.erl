%%% @doc Determines the identity, role and isolation of a new caller, before any member hears the caller.
-module(lobby_identity).

-include_lib("p1_sip/include/esip.hrl").

-export([known/2, keep_isolated/2]).
-export_type([rule/0]).

%% A rule that gives callers a role. A header counts only if it comes from a proxy in these networks.
-type rule() :: {{user, binary()}, lobby_rules:role()} | {{network, lobby_auth:network()}, lobby_rules:role()}
              | {header, Name :: binary(), [lobby_auth:network()]}.

%% @doc Returns a caller's identity, the role if one is configured, and whether the caller stays isolated.
-spec known(lobby_sip_message:message(), lobby_sip_message:target()) ->
          #{identity := binary(), isolated := boolean(), name => binary(), role => lobby_rules:role()}.
known(Invite, Source) ->
    Named = named(lobby_auth:identity(Invite), Invite),
    Known = Named#{isolated => lobby_store:has(lobby_isolated, maps:get(identity, Named))},
    Address = lobby_sip_message:address(Source),
    Roles = [Role || Rule <- application:get_env(lobby, roles, []), Role <- role(Rule, Invite, Address)],
    maps:merge(Known, maps:from_list([{role, Role} || [Role | _] <- [Roles]])).

%% Returns the name that the caller proved or that a trusted proxy asserts, or else the address in From.
named(none, Invite) ->
    {_, #uri{user = User, host = Host}, _} = lobby_sip_message:header(from, Invite),
    #{identity => <<"sip:", User/binary, "@", Host/binary>>};
named(Name, _) ->
    #{identity => Name, name => Name}.

role({{user, User}, Role}, Invite, _) -> [Role || lobby_auth:identity(Invite) =:= User];
role({{network, Network}, Role}, _, Address) -> [Role || lobby_auth:is_in(Address, [Network])];
role({header, Name, Proxies}, #sip{hdrs = Headers}, Address) ->
    [Role || lobby_auth:is_in(Address, Proxies), {role, {Of, Role}} <- Headers, Of =:= Name,
             byte_size(Role) >= 1, byte_size(Role) =< 32].

%% @doc Sets whether a caller with this identity is isolated in later calls.
-spec keep_isolated(Identity :: binary(), boolean()) -> ok.
keep_isolated(Identity, true) -> lobby_store:put(lobby_isolated, Identity, true);
keep_isolated(Identity, false) -> lobby_store:delete(lobby_isolated, Identity).
