% Constrained position shifting on one runway: which rank lands at each place, and when. Ranks and places count from 1.
include "alldifferent.mzn";
int: flights;
int: shift;
bool: is_delay;
array[1..flights] of int: estimate;
array[1..flights] of int: weight;
array[1..flights] of int: first;                  % the window of each rank
array[1..flights] of int: last;
array[1..flights, 1..flights] of int: separation; % leader, follower
array[int] of int: leads;                         % leads[q] lands before follows[q]
array[int] of int: follows;
array[1..flights] of var 1..flights: rank_at;
array[1..flights] of var min(first)..max(last): landing_at;   % by place
array[1..flights] of var min(first)..max(last): landing;      % by rank
constraint forall(p in 1..flights)(rank_at[p] >= p - shift /\ rank_at[p] <= p + shift);
constraint alldifferent(rank_at);
constraint forall(p in 1..flights)(landing[rank_at[p]] = landing_at[p]);
constraint forall(r in 1..flights)(landing[r] >= first[r] /\ landing[r] <= last[r]);
constraint forall(p in 2..flights)(landing_at[p] >= landing_at[p - 1] + separation[rank_at[p - 1], rank_at[p]]);
constraint forall(r, q in 1..flights where q - r > 2 * shift)(landing[q] >= landing[r] + separation[r, q]);
constraint forall(q in index_set(leads))(landing[leads[q]] < landing[follows[q]]);
var 0..sum(r in 1..flights)(weight[r] * (max(last) - min(first) + 1)): cost =
  if is_delay then sum(r in 1..flights)(weight[r] * max(0, landing[r] - estimate[r])) else 0 endif;
solve :: int_search(rank_at ++ landing_at, input_order, indomain_min)
  minimize if is_delay then cost else landing_at[flights] endif;
output ["value \(if is_delay then fix(cost) else fix(landing_at[flights]) endif)\n"];
