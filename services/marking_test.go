package main

import (
	"fmt"
	"net"
	"os"
	"os/exec"
	"path/filepath"
	"strconv"
	"strings"
	"syscall"
	"testing"
	"time"

	"fled/bson"
	"fled/mock"
	"fled/wire"
)

// TestMain is the program itself where a test calls it so.
func TestMain(m *testing.M) {
	if os.Getenv("FLED_CALLED") != "" {
		os.Exit(run(os.Args))
	}
	os.Exit(m.Run())
}

func TestMarkWords(t *testing.T) {
	read, err := readMarkOptions([]string{"--idleShutdownTimeoutSecs=5", "--pidfilepath", "pid", "--logpath=log", "--port",
		"21000", "--logappend"}, idleOfCryptd)
	if err != nil || read.idle != 5*time.Second || read.pidFile != "pid" || read.logFile != "log" || read.plain ||
		fmt.Sprint(read.listen) != "[localhost:21000]" {
		t.Errorf("%+v %v", read, err)
	}
	read, err = readMarkOptions(nil, idleOfCryptd)
	if err != nil || read.idle != time.Minute || fmt.Sprint(read.listen) != "[localhost:27020]" {
		t.Errorf("%+v %v", read, err)
	}
	read, err = readMarkOptions([]string{"--listen", "unix:a", "--listen", "127.0.0.1:1", "--plain"}, 0)
	if err != nil || read.idle != 0 || fmt.Sprint(read.listen) != "[unix:a 127.0.0.1:1]" || !read.plain {
		t.Errorf("%+v %v", read, err)
	}
	for _, wrong := range [][]string{
		{"more"}, {"--port", "x"}, {"--port", "-1"}, {"--port", "65536"}, {"--idleShutdownTimeoutSecs", "-1"}, {"--unknown"},
		{"--port", "1", "--listen", "unix:a"}, {"--logpath"},
	} {
		if read, err := readMarkOptions(wrong, 0); err == nil {
			t.Errorf("%q is read as %+v", wrong, read)
		}
	}
}

func TestListeningStaysHere(t *testing.T) {
	taken := mock.Door(t)
	for address, plain := range map[string]bool{"0.0.0.0:0": false, ":0": false, "nowhere": false, "127.0.0.1:x": false,
		"127.0.0.1:65536": false, "unix:/nowhere/at/all": false, taken.Addr().String(): true} {
		if all, err := listenAt([]string{"127.0.0.1:0", address}, plain); err == nil || all != nil {
			t.Errorf("%s is listened at", address)
		}
	}
	for _, address := range []string{"0.0.0.0:0", ":0", "localhost:0", "127.0.0.1:0"} {
		all, err := listenAt([]string{address}, strings.HasPrefix(address, "0.") || address == ":0")
		if err != nil || len(all) == 0 {
			t.Errorf("%s: %v", address, err)
		}
		closeAll(all)
	}
}

// Who has one of localhost's addresses would be sent what is meant for the other.
func TestBothAddressesOfLocalhost(t *testing.T) {
	other, err := net.Listen("tcp", "[::1]:0")
	if err != nil {
		t.Log("no ::1 here:", err)
		return
	}
	defer other.Close()
	port := other.Addr().(*net.TCPAddr).Port
	if all, err := listenAt([]string{"localhost:" + strconv.Itoa(port)}, false); err == nil {
		closeAll(all)
		t.Error("one address of localhost is another's, and the other one is listened at")
	}
}

// A socket that is left over is taken; one that somebody listens at isn't, nor is a file.
func TestASocketOfThisMachine(t *testing.T) {
	path := filepath.Join(t.TempDir(), "socket")
	left, err := net.Listen("unix", path)
	if err != nil {
		t.Fatal(err)
	}
	left.(*net.UnixListener).SetUnlinkOnClose(false)
	if all, err := listenAt([]string{"unix:" + path}, false); err == nil {
		closeAll(all)
		t.Error("another one's socket is taken")
	}
	left.Close()
	all, err := listenAt([]string{"unix:" + path}, false)
	if err != nil {
		t.Fatal(err)
	}
	closeAll(all)
	write(t, path, []byte("a file"))
	if _, err := listenAt([]string{"unix:" + path}, false); err == nil {
		t.Error("a file is taken")
	}
	if contents, err := os.ReadFile(path); err != nil || string(contents) != "a file" {
		t.Error("a file is gone", err)
	}
}

// called calls the program by a name, in a folder of its own.
func called(t *testing.T, name string, words ...string) (command *exec.Cmd, folder string) {
	t.Helper()
	folder = t.TempDir()
	program, err := os.Executable()
	if err != nil {
		t.Fatal(err)
	}
	if err := os.Symlink(program, filepath.Join(folder, name)); err != nil {
		t.Fatal(err)
	}
	command = exec.Command(filepath.Join(folder, name), words...)
	command.Env, command.Dir = append(os.Environ(), "FLED_CALLED=1"), folder
	return command, folder
}

// logged is what stands in a log, once this does.
func logged(t *testing.T, folder, part string) string {
	t.Helper()
	var said string
	mock.Within10s(t, func() bool {
		contents, _ := os.ReadFile(filepath.Join(folder, "log"))
		said = string(contents)
		return strings.Contains(said, part)
	})
	return said
}

// statusOf waits for a program's end.
func statusOf(t *testing.T, command *exec.Cmd) int {
	t.Helper()
	ended := make(chan int, 1)
	go func() { command.Wait(); ended <- command.ProcessState.ExitCode() }()
	select {
	case status := <-ended:
		return status
	case <-time.After(20 * time.Second):
		command.Process.Kill()
		t.Fatal("the program doesn't end")
		return 0
	}
}

func ping(t *testing.T, address string) bool {
	t.Helper()
	fields := mock.Dial(t, address).Command(wire.Msg{Body: bson.Wrap(bson.AppendInt32(nil, "ping", 1))})
	return mock.Number(mock.Field(fields, "ok")) == 1
}

// freePort is a port that nobody listens at, at this moment.
func freePort(t *testing.T) string {
	t.Helper()
	door := mock.Door(t)
	defer door.Close()
	return strconv.Itoa(door.Addr().(*net.TCPAddr).Port)
}

// By the name mongocryptd, with its options: it writes its number, ends once nobody asks, and ends with 1 where the
// port is taken, which its log says.
func TestCalledAsDriversDo(t *testing.T) {
	port := freePort(t)
	words := []string{"--idleShutdownTimeoutSecs=3", "--port", port, "--pidfilepath=pid", "--logpath=log"}
	first, folder := called(t, cryptd, words...)
	if err := first.Start(); err != nil {
		t.Fatal(err)
	}
	logged(t, folder, `"event":"listens"`)
	number, err := os.ReadFile(filepath.Join(folder, "pid"))
	if err != nil || string(number) != strconv.Itoa(first.Process.Pid)+"\n" {
		t.Errorf("%q %v", number, err)
	}
	second, other := called(t, cryptd, words...)
	if err := second.Start(); err != nil {
		t.Fatal(err)
	}
	status, said := statusOf(t, second), logged(t, other, "failed")
	if status != 1 || !strings.Contains(said, "address already in use") {
		t.Errorf("a taken port ends with %d", status)
	}
	if _, err := os.Stat(filepath.Join(other, "pid")); err == nil {
		t.Error("who can't begin has written its number")
	}
	begun := time.Now()
	for time.Since(begun) < 4*time.Second {
		if !ping(t, "127.0.0.1:"+port) {
			t.Error("it doesn't answer")
		}
		time.Sleep(200 * time.Millisecond)
	}
	if status := statusOf(t, first); status != 0 || !strings.Contains(logged(t, folder, "ends"), `"why":"idle"`) {
		t.Errorf("idleness ends with %d", status)
	}
	if _, err := os.Stat(filepath.Join(folder, "pid")); err == nil {
		t.Error("its number is still there")
	}
}

func TestSignalsToTheMarker(t *testing.T) {
	for _, signal := range []syscall.Signal{syscall.SIGTERM, syscall.SIGINT} {
		socket := filepath.Join(t.TempDir(), "socket")
		command, folder := called(t, "fled", "mark", "--listen", "unix:"+socket, "--listen", "127.0.0.1:0", "--logpath=log")
		if err := command.Start(); err != nil {
			t.Fatal(err)
		}
		logged(t, folder, "127.0.0.1")
		if !ping(t, "unix:"+socket) {
			t.Error("it doesn't answer")
		}
		command.Process.Signal(signal)
		if status := statusOf(t, command); status != 0 || !strings.Contains(logged(t, folder, "ends"), signal.String()) {
			t.Errorf("%v ends with %d", signal, status)
		}
		if _, err := os.Lstat(socket); err == nil {
			t.Error("the socket is still there")
		}
	}
}

func TestStatusOfWords(t *testing.T) {
	for _, words := range [][]string{nil, {"unknown"}, {"mark", "more"}, {"proxy"}} {
		command, _ := called(t, "fled", words...)
		said, _ := command.CombinedOutput()
		if status := command.ProcessState.ExitCode(); status != 2 || !strings.Contains(string(said), "usage: ") {
			t.Errorf("%q end with %d: %s", words, status, said)
		}
	}
}
