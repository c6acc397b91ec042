(* Reads files, and prints of each what line_said says, which Said.v shows to be right *)

open Checker

let help =
  "Checks certificates of mis\xc3\xa8re quotients by a checker that Coq has proved right.\n\n\
  \    checker FILE..\n\n\
   Of a certificate it prints the first line of `misere check`:\n\
  \    yes CODE order ORDER start START period PERIOD\n\
  \    yes CODE order ORDER heaps LAST\n\
  \    no NUMBER NAME           the fault, 1 Text to 7 Outcome; nothing more is said of 7\n\
   and of one of a whole game, which begins with `mqw`, that of `misere infinite`:\n\
  \    infinite CODE whole\n\
  \    no 1 Text                it is no such text\n\
  \    no 33 Undecided          it isn't seen to be right; misere may say 7, and where it is wrong\n\
   and of one of a presentation, which begins with `mqp`, that of `misere verify`:\n\
  \    yes CODE order ORDER heaps LAST\n\
  \    no NUMBER NAME           the fault: 1 Text, 2 Law, 31 Part; or\n\
  \    no 33 Undecided          it isn't seen to be right; of those with infinitely many elements none is\n\
   Of several files each line has the file's name and a tab before it. There is no limit: `no 8 Limit` is\n\
   never said.\n\n\
   The status is 0 if all are accepted, 1 if one isn't, 2 if no file is named, 3 if one can't be read or stack or\n\
   memory runs out.\n"

let rec of_list = function Nil -> [] | Cons (x, xs) -> x :: of_list xs
let all = Array.of_list (of_list all_bytes)

let char_of b =
  let rec find i = if all.(i) == b then Char.chr i else find (i + 1) in
  find 0

let text_of s =
  let rec from i bs = if i < 0 then bs else from (i - 1) (Cons (all.(Char.code s.[i]), bs)) in
  text_of_bytes (from (String.length s - 1) Nil)

let read file =
  let it = open_in_bin file in
  Fun.protect ~finally:(fun () -> close_in it) (fun () -> really_input_string it (in_channel_length it))

let said file =
  String.concat "" (List.map (fun b -> String.make 1 (char_of b)) (of_list (line_said (text_of (read file)))))

let is_no line = String.length line > 1 && String.sub line 0 2 = "no"

let tell file why =
  prerr_endline ("checker: " ^ why ^ " " ^ file);
  3

(* The status of one file, whose line is printed *)
let check many file =
  match said file with
  | line ->
      print_string (if many then file ^ "\t" ^ line else line);
      flush stdout;
      if is_no line then 1 else 0
  | exception (Sys_error _ | End_of_file) -> tell file "cannot read"
  | exception (Stack_overflow | Out_of_memory) -> tell file "not enough stack or memory for"

(* The checker goes through texts by recursion: the program begins itself again with as much stack as it may have. *)
let grow_stack () =
  if Sys.getenv_opt "CHECKER_STACK" = None then begin
    Unix.putenv "CHECKER_STACK" "grown";
    let go = "ulimit -S -s \"$(ulimit -H -s)\" 2>&-; exec \"$0\" \"$@\"" in
    let words = Array.sub Sys.argv 1 (Array.length Sys.argv - 1) in
    Unix.execv "/bin/sh" (Array.append [| "sh"; "-c"; go; Sys.executable_name |] words)
  end

let () =
  match List.tl (Array.to_list Sys.argv) with
  | [] ->
      prerr_string help;
      exit 2
  | [ "--help" ] | [ "-h" ] -> print_string help
  | files ->
      grow_stack ();
      exit (List.fold_left (fun status file -> max status (check (List.length files > 1) file)) 0 files)
