(* Queue, version 1.0: a queue of strings.

     empty      the queue without strings
     add s q    q with s at its end
     take q     the string at its head and the rest, None if it is empty
     size q     how many strings it has
     items q    its strings, the head first

   It is two lists, the front as it is and the back reversed, with how many strings they have together.
   A `take` of an empty front turns the back round. If each queue is used once, that happens to each
   string once at most.

   A program asks for it so. Programs that exchange queues write these lines alike:
     import Queue : sig
       type t
       val empty : t
       val add : string -> t -> t
       val take : t -> (string * t) option
       val size : t -> int
       val items : t -> string list
     end version 1.* like struct type t = int * string list * string list end by "std:queue" *)
module Queue : sig
  type t
  val empty : t
  val add : string -> t -> t
  val take : t -> (string * t) option
  val size : t -> int
  val items : t -> string list
end version 1.0 =
struct
  type t = int * string list * string list
  val empty : t = (0, ([] : string list), ([] : string list))
  (* The first list reversed, before the second. *)
  val turn : string list * string list -> string list =
    rec turn (both : string list * string list) : string list =
      match both with
        ([], (done : string list)) -> done
      | ((first : string) :: (rest : string list), (done : string list)) -> turn (rest, first :: done)
      end
  val add : string -> t -> t =
    fun (s : string) -> fun (q : t) ->
      match q with ((n : int), (front : string list), (back : string list)) ->
        (n + 1, front, s :: back)
      end
  val take : t -> (string * t) option =
    fun (q : t) ->
      match q with
        ((n : int), (first : string) :: (rest : string list), (back : string list)) ->
          Some (first, (n - 1, rest, back))
      | ((n : int), [], (back : string list)) ->
          match turn (back, ([] : string list)) with
            [] -> (None : (string * t) option)
          | (first : string) :: (rest : string list) ->
              Some (first, (n - 1, rest, ([] : string list)))
          end
      end
  val size : t -> int = fun (q : t) -> match q with ((n : int), _, _) -> n end
  val items : t -> string list =
    fun (q : t) ->
      match q with (_, (front : string list), (back : string list)) ->
        turn (turn (front, ([] : string list)), turn (back, ([] : string list)))
      end
end
