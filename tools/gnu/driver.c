/* Runs cases on the LM32 simulator of GDB and tells what each step leaves.

   It uses nothing of the simulator but the interface that a debugger uses
   (sim/sim.h): open, registers, memory, one step, and why it stopped.

   Standard input has one case a line, four fields separated by one space:

       STEPS START WORDS DATA

   in the notation of the vector file (see README.md).  For each case standard
   output gets

       B pc word ie im ip eba deba r0 ... r31     before each step
       S reason signal                            after each step
       E pc ie im ip eba deba r0 ... r31          after the last step
       M address byte                             for each byte of RAM that
                                                  is not what it was at first
       .                                          end of the case

   all numbers hexadecimal but reason and signal.  A step that the simulator
   refuses for good (an invalid instruction, a misaligned access, the end of
   the program) is the last one; after any other the next step is made.  */

#include <errno.h>
#include <stdio.h>
#include <stdlib.h>
#include <string.h>
#include <sys/types.h>
#include <sys/wait.h>
#include <unistd.h>

/* The library's header asks for the name of a package; there is none here.  */
#define PACKAGE "driver"
#include "bfd.h"
#include "sim/callback.h"
#include "sim/sim.h"
#include "gdb/sim-lm32.h"

/* The start that every case shares.  */
#define RAM 0x1000
#define FIRST_PC 0x400
#define FIRST_EBA 0x400
#define FIRST_DEBA 0x800
#define FILL 0xA5A5A5A5u

/* Memory of the driver's own, far from the RAM.  The interface gives no access
   to control registers, so the driver lets the simulator do an rcsr or wcsr
   that stands here.  */
#define OWN 0x80000000u

enum { IE = 0, IM = 1, IP = 2, EBA = 7, DEBA = 9 };
static const int shown[] = { IE, IM, IP, EBA, DEBA };
#define SHOWN (sizeof shown / sizeof shown[0])

/* GDB's numbers of signals, which do not depend on the host.  A data fault is
   11; the driver goes on after it.  */
enum { ILL = 4, TRAP = 5, BUS = 10 };

static SIM_DESC sd;

static void
fail (const char *what)
{
  fprintf (stderr, "driver: %s\n", what);
  exit (1);
}

/* The simulator's messages about faults: the signal tells as much.  */
static void
drop_message (host_callback *callback, const char *format, va_list values)
{
  (void) callback;
  (void) format;
  (void) values;
}

static unsigned
word_at (const unsigned char *b)
{
  return (unsigned) b[0] << 24 | b[1] << 16 | b[2] << 8 | b[3];
}

static void
put_word (unsigned char *b, unsigned v)
{
  b[0] = v >> 24;
  b[1] = v >> 16;
  b[2] = v >> 8;
  b[3] = v;
}

static unsigned
get_reg (int n)
{
  unsigned char b[4];
  if (sim_fetch_register (sd, n, b, 4) == 0)
    fail ("a register cannot be read");
  return word_at (b);
}

static void
set_reg (int n, unsigned v)
{
  unsigned char b[4];
  put_word (b, v);
  if (sim_store_register (sd, n, b, 4) == 0)
    fail ("a register cannot be written");
}

static void
step (enum sim_stop *reason, int *signal)
{
  sim_resume (sd, 1, 0);
  sim_stop_reason (sd, reason, signal);
}

/* Lets the simulator do the instruction WORD in the driver's own memory, with
   *R1 in r1, and brings r1 and PC back.  *R1 becomes what r1 was after it.  */
static void
aside (unsigned word, unsigned *r1)
{
  enum sim_stop reason;
  int signal;
  unsigned old_r1 = get_reg (1);
  unsigned old_pc = get_reg (SIM_LM32_PC_REGNUM);
  unsigned char b[4];

  put_word (b, word);
  if (sim_write (sd, OWN, b, 4) != 4)
    fail ("the driver's own memory cannot be written");
  set_reg (1, *r1);
  set_reg (SIM_LM32_PC_REGNUM, OWN);
  step (&reason, &signal);
  if (reason != sim_stopped || signal != TRAP
      || get_reg (SIM_LM32_PC_REGNUM) != OWN + 4)
    fail ("an instruction of the driver was not done");
  *r1 = get_reg (1);
  set_reg (1, old_r1);
  set_reg (SIM_LM32_PC_REGNUM, old_pc);
}

static unsigned
get_csr (int n)
{
  unsigned v = 0;
  aside (0x90000800u | n << 21, &v);	/* rcsr r1, n */
  return v;
}

static void
set_csr (int n, unsigned v)
{
  aside (0xD0010000u | n << 21, &v);	/* wcsr n, r1 */
}

/* Reads COUNT hexadecimal digits from *TEXT and moves *TEXT behind them.  */
static unsigned
digits (const char **text, int count)
{
  unsigned v = 0;
  while (count-- > 0)
    {
      char c = *(*text)++;
      if (c >= '0' && c <= '9')
	v = v << 4 | (c - '0');
      else if (c >= 'A' && c <= 'F')
	v = v << 4 | (c - 'A' + 10);
      else
	fail ("a digit is missing in a case");
    }
  return v;
}

static void
poke (unsigned char *ram, unsigned address, unsigned byte)
{
  if (address >= RAM)
    fail ("a case has bytes outside RAM");
  ram[address] = byte;
}

static void
show_state (void)
{
  size_t i;
  for (i = 0; i < SHOWN; i++)
    printf (" %08X", get_csr (shown[i]));
  for (i = 0; i < 32; i++)
    printf (" %08X", get_reg (i));
  putchar ('\n');
}

static void
run_case (const char *text)
{
  unsigned char before[RAM], after[RAM];
  unsigned steps, address, i;

  memset (before, 0, RAM);
  for (i = 0; i < 32; i++)
    set_reg (i, FILL);

  steps = digits (&text, 2);
  if (*text++ != ' ')
    fail ("a case has a wrong form");
  if (*text == '-')
    text++;
  else
    for (;;)
      {
	unsigned reg = digits (&text, 2);
	if (reg > 31 || *text++ != '=')
	  fail ("a case has a wrong register");
	set_reg (reg, digits (&text, 8));
	if (*text != ',')
	  break;
	text++;
      }
  if (*text++ != ' ')
    fail ("a case has a wrong form");
  for (address = FIRST_PC; *text != ' '; address++)
    poke (before, address, digits (&text, 2));
  text++;
  if (*text == '-')
    text++;
  else
    for (;;)
      {
	address = digits (&text, 8);
	if (*text++ != '=')
	  fail ("a case has a wrong address");
	while (*text != ',' && *text != '\n' && *text != '\0')
	  poke (before, address++, digits (&text, 2));
	if (*text != ',')
	  break;
	text++;
      }
  if (*text != '\n' && *text != '\0')
    fail ("a case has a wrong form");

  if (sim_write (sd, 0, before, RAM) != RAM)
    fail ("RAM cannot be written");
  set_csr (IE, 0);
  set_csr (IM, 0);
  set_csr (IP, 0);
  set_csr (EBA, FIRST_EBA);
  set_csr (DEBA, FIRST_DEBA);
  set_reg (SIM_LM32_PC_REGNUM, FIRST_PC);

  while (steps-- > 0)
    {
      enum sim_stop reason;
      int signal;
      unsigned char b[4] = { 0, 0, 0, 0 };
      unsigned pc = get_reg (SIM_LM32_PC_REGNUM);

      sim_read (sd, pc, b, 4);	/* Zero where there is no memory.  */
      printf ("B %08X %08X", pc, word_at (b));
      show_state ();
      step (&reason, &signal);
      printf ("S %d %d\n", reason, signal);
      if (reason != sim_stopped || signal == ILL || signal == BUS)
	break;
    }

  printf ("E %08X", get_reg (SIM_LM32_PC_REGNUM));
  show_state ();
  if (sim_read (sd, 0, after, RAM) != RAM)
    fail ("RAM cannot be read");
  for (i = 0; i < RAM; i++)
    if (after[i] != before[i])
      printf ("M %08X %02X\n", i, after[i]);
  puts (".");
}

int
main (void)
{
  static char *options[] = {
    (char *) "driver",
    /* Exceptions go to the program's handlers and not to the host.  */
    (char *) "--environment", (char *) "operating",
    (char *) "--memory-region", (char *) "0x0,0x1000",
    (char *) "--memory-region", (char *) "0x80000000,0x1000",
    NULL
  };
  char *line = NULL;
  size_t room = 0;

  default_callback.init (&default_callback);
  default_callback.evprintf_filtered = drop_message;
  sd = sim_open (SIM_OPEN_DEBUG, &default_callback, NULL, options);
  if (sd == NULL)
    fail ("the simulator cannot be opened");
  if (sim_create_inferior (sd, NULL, NULL, NULL) != SIM_RC_OK)
    fail ("the simulator cannot be started");

  /* Each case runs in a process of its own, so that it finds the simulator as
     it was opened and none can disturb the next.  */
  while (getline (&line, &room, stdin) > 0)
    {
      int status;
      pid_t child;

      fflush (stdout);
      child = fork ();
      if (child < 0)
	fail (strerror (errno));
      if (child == 0)
	{
	  run_case (line);
	  fflush (stdout);
	  _exit (0);
	}
      if (waitpid (child, &status, 0) != child || status != 0)
	fail ("a case ended badly");
    }
  free (line);
  return 0;
}
