package logcopy

import (
	"os"
	"path/filepath"

	"telovamish.org/server/internal/entries"
	"telovamish.org/server/internal/faults"
	"telovamish.org/server/internal/report"
)

// makeFolder makes a folder if it is not there, and syncs the names of those that are made.
func makeFolder(folder string) error {
	at, err := filepath.Abs(folder)
	if err != nil {
		return err
	}
	holders := []string{}
	for {
		if _, err := os.Stat(at); !os.IsNotExist(err) {
			break
		}
		at = filepath.Dir(at)
		holders = append(holders, at)
	}
	if err := os.MkdirAll(folder, 0o700); err != nil {
		return err
	}
	for _, it := range holders {
		if err := syncFolder(it); err != nil {
			return err
		}
	}
	return nil
}

// syncFolder syncs the names of a folder's files: otherwise a power loss may leave a new one without a
// name.
func syncFolder(folder string) error {
	at, err := os.Open(folder)
	if err != nil {
		return err
	}
	defer at.Close()
	return at.Sync()
}

// Records passes on the records of a copy, which may be in use, up to the first that is not whole.
func Records(folder string, take func(Record) error) error {
	_, err := records(folder, take)
	return err
}

// records returns where the records end, too.
func records(folder string, take func(Record) error) (int64, error) {
	c := &Copy{folder: folder, path: filepath.Join(folder, "log")}
	file, err := os.Open(c.path)
	if err != nil {
		return 0, failure(c.path, err)
	}
	defer file.Close()
	found, err := file.Stat()
	end := Start
	if err == nil {
		err = c.test(file)
	}
	if err == nil {
		err = recordsIn(file, Start, found.Size(), func(it Record) error {
			end = it.End
			return take(it)
		})
	}
	if err == ErrEnough {
		return end, nil
	}
	if err != nil {
		return end, failure(c.path, err)
	}
	return end, nil
}

// AllRecords is Records of a copy of which nothing may be missing. It returns Damaged after them if a
// record comes that was synced and is not what was written. A folder that was copied while it was in use
// may have less than was synced.
func AllRecords(folder string, take func(Record) error) error {
	isEnough := false
	synced := SyncedOf(folder)
	end, err := records(folder, func(it Record) error {
		err := take(it)
		isEnough = err == ErrEnough
		return err
	})
	if err != nil || isEnough {
		return err
	}
	path := filepath.Join(folder, "log")
	found, err := os.Stat(path)
	if err != nil {
		return failure(path, err)
	}
	if end < synced && synced <= found.Size() {
		return faults.New(faults.Damaged, "the record at byte %d of %s", end, path)
	}
	return nil
}

// From makes a copy in an empty folder from another replica's, which may be in use. It returns the last
// record. It leaves nothing if that fails.
func From(source, folder string) (Mark, error) {
	if _, err := os.Stat(filepath.Join(folder, "log")); err == nil {
		return Mark{}, report.End(1, "%s has a copy already", folder)
	}
	if err := Records(source, func(Record) error { return ErrEnough }); err != nil {
		return Mark{}, err
	}
	head, err := HeadIn(source)
	if err != nil {
		return Mark{}, err
	}
	target, err := Open(folder)
	if err != nil {
		return Mark{}, err
	}
	defer target.Close()
	if err := target.fill(source, head); err != nil {
		for _, name := range []string{"log", "synced"} {
			os.Remove(filepath.Join(folder, name))
		}
		return Mark{}, err
	}
	return target.Mark(), nil
}

// fill takes all records of another copy, and its head.
func (c *Copy) fill(source string, head []byte) error {
	if err := c.Scan(nil); err != nil {
		return err
	}
	err := AllRecords(source, func(it Record) error {
		if _, err := entries.Parse(it.Data); err != nil {
			return faults.New(faults.Damaged, "the entry at %d: %v", it.Position, err)
		}
		_, err := c.Append(it.Place, it.Data)
		return err
	})
	if err == nil {
		err = c.Sync(c.Mark())
	}
	if err == nil {
		_, err = Kept(c.folder, "head", head)
	}
	return err
}

// HeadIn is the log's head, as a folder has it.
func HeadIn(folder string) ([]byte, error) {
	path := filepath.Join(folder, "head")
	data, err := os.ReadFile(path)
	if err != nil {
		return nil, failure(path, err)
	}
	return data, nil
}

// Kept is what a file of the folder has; it is made if it is not there. Its name is synced too: a replica
// that lost its own would be another one, and the old one would stay listed.
func Kept(folder, name string, made []byte) ([]byte, error) {
	path := filepath.Join(folder, name)
	found, err := os.ReadFile(path)
	if err == nil || !os.IsNotExist(err) {
		if err != nil {
			err = failure(path, err)
		}
		return found, err
	}
	if err := keep(folder, path, made); err != nil {
		return nil, failure(path, err)
	}
	return made, nil
}

func keep(folder, path string, made []byte) error {
	file, err := os.OpenFile(path+".new", os.O_WRONLY|os.O_CREATE|os.O_TRUNC, 0o666)
	if err != nil {
		return err
	}
	_, err = file.Write(made)
	if err == nil {
		err = file.Sync()
	}
	if other := file.Close(); err == nil {
		err = other
	}
	if err == nil {
		err = os.Rename(path+".new", path)
	}
	if err == nil {
		err = syncFolder(folder)
	}
	return err
}
